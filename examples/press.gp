# A lamp, a switch, one press, and the recorded frame once more. Play it with: ./gp sim < examples/press.gp
# A line is a time in milliseconds and what happens then.
#
# s1 is a lamp: a sink with address 0001, which groups its switches by their SrcID, on channel 11.
0 sink s1 0001 0000000000000001 derived 11 - D0D1D2D3D4D5D6D7D8D9DADBDCDDDEDF
# The lamp is paired with switch 87654321: its key, of kind 4 (out of the box), security level 2, DeviceID 02 (on/off switch).
# The last counter that was used is 1.
0 pair s1 87654321 C0C1C2C3C4C5C6C7C8C9CACBCCCDCECF 4 2 02 1
# d1 is that switch.
0 device d1 87654321 C0C1C2C3C4C5C6C7C8C9CACBCCCDCECF 4 2 02 1
# The switch is pressed: command 20, Off. The frame, number 0 on the air, has counter 2.
10 press d1 20
# The lamp hears it, and acts: the cluster On/Off (0006) gets its command Off (00).
20 hear 0 s1 40
# Somebody recorded the frame and sends it again. The lamp knows counter 2 and does nothing.
30 hear 0 s1 40
