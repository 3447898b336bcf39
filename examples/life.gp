# A life of a door lock over the file gp.disk, behind 'gp format': gp sink examples/life.gp
# A line is a time in milliseconds and what happens then. The second life, by the same lines, does nothing: each frame is stale.
#
# The lock has address 0001 and IEEE address 0000000000000001, groups its switches by their SrcID, is on channel 11, uses the default
# link key (-), and its own shared key is the last word. With this line it reads from gp.disk what it remembers.
0 config 0001 0000000000000001 derived 11 - D0D1D2D3D4D5D6D7D8D9DADBDCDDDEDF

# The lock is paired with the switch at the door, 01700001: its key, of kind 4 (out of the box), security level 3 (encrypted),
# DeviceID 02 (on/off switch). It hasn't used a counter yet.
100 pair 01700001 C0C1C2C3C4C5C6C7C8C9CACBCCCDCECF 4 3 02 0

# Somebody leaves. The switch sends Lock Door (50) with counter 1, and the lock acts: cluster Door Lock (0101), command 00.
10000 hear 010800FFFFFFFF8C380100700101000000EBCE275221

# Somebody comes home: Unlock Door (51) with counter 2. The radio hears the frame twice; the door is unlocked once.
20000 hear 010801FFFFFFFF8C3801007001020000009388E682F9
20002 hear 010801FFFFFFFF8C3801007001020000009388E682F9

# Locked for the night, counter 3.
80000 hear 010802FFFFFFFF8C380100700103000000CBB45C8F20

# A thief has recorded the Unlock and sends it again: it is stale. With counter 9 written in its place its MIC isn't right.
90000 hear 010801FFFFFFFF8C3801007001020000009388E682F9
90010 hear 010801FFFFFFFF8C3801007001090000009388E682F9

# What the lock remembers, from life to life: one pairing, live, and 3, the greatest counter.
99000 table
