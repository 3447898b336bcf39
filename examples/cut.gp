# A lock, a switch and a power cut in the middle of writing a counter.
#
# The lock s1, and its switch d1. The lock is paired with the switch.
0 sink s1 0001 0000000000000001 derived 11 - D0D1D2D3D4D5D6D7D8D9DADBDCDDDEDF
0 pair s1 87654321 C0C1C2C3C4C5C6C7C8C9CACBCCCDCECF 4 2 0A 1
0 device d1 87654321 C0C1C2C3C4C5C6C7C8C9CACBCCCDCECF 4 2 0A 1

# The switch is pressed: Unlock Door. Somebody records the frame.
10 press d1 51

# The power is cut in the next change of the lock, once two device calls of the disk have returned: while the gate of the row's
# other slot is being written. In way 1 what was being written is there.
15 cut s1 1 2 1
20 hear 0 s1 40
30 on s1
40 table s1

# The lock didn't act, but it remembers the counter: the recorded frame is stale.
50 hear 0 s1 40

# The next press is acted on, and its frame only once.
60 press d1 51
70 hear 1 s1 40
80 hear 1 s1 40
