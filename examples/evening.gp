# An evening with two lamps, four switches, and a custom rule. Play it with: ./gp sim < examples/evening.gp
0 sink hall 0001 0000000000000001 derived 11 - D0D1D2D3D4D5D6D7D8D9DADBDCDDDEDF
0 sink desk 0002 0000000000000002 group:4002 11 - D0D1D2D3D4D5D6D7D8D9DADBDCDDDEDF
0 device door 01700001 A1A1A1A1A1A1A1A1A1A1A1A1A1A1A1A1 4 2 02 0
0 device bed 01700002 A2A2A2A2A2A2A2A2A2A2A2A2A2A2A2A2 4 3 02 0
0 device stairs 01700003 A3A3A3A3A3A3A3A3A3A3A3A3A3A3A3A3 4 2 02 70
0 device dimmer 01700004 A4A4A4A4A4A4A4A4A4A4A4A4A4A4A4A4 4 3 03 0
# Three switches are paired with the hall, the dimmer and the bed with the desk.
100 pair hall 01700001 A1A1A1A1A1A1A1A1A1A1A1A1A1A1A1A1 4 2 02 0
110 pair hall 01700002 A2A2A2A2A2A2A2A2A2A2A2A2A2A2A2A2 4 3 02 0
120 pair hall 01700003 A3A3A3A3A3A3A3A3A3A3A3A3A3A3A3A3 4 2 02 70
130 pair desk 01700004 A4A4A4A4A4A4A4A4A4A4A4A4A4A4A4A4 4 3 03 0
140 pair desk 01700002 A2A2A2A2A2A2A2A2A2A2A2A2A2A2A2A2 4 3 02 0
# The rule: at the desk, Off (20) of the bed also moves the lamp to level 0 in two seconds (Level Control, Move to Level).
150 rule desk 01700002 20 01 fixed 0008 00 001400
# Somebody comes home: On (21) by the door switch. Both lamps hear the frame; the desk doesn't know the switch.
1000 press door 21
1005 hear 0 hall 52
1006 hear 0 desk 38
# The dimmer: Step Up (32) by 10 (hexadecimal) without a time, then Move Down (31) without a rate.
2000 press dimmer 3210
2004 hear 1 desk 60
2500 press dimmer 31
2504 hear 2 desk 60
# The stairs send Toggle (22) twice. The second frame arrives first, and the first one then is too late.
3000 press stairs 22
3010 press stairs 22
3015 hear 4 hall 20
3016 hear 3 hall 21
# Off (20) in bed: both lamps act, the desk by two rules.
4000 press bed 20
4003 hear 5 hall 33
4003 hear 5 desk 35
# A recorded frame, replayed an hour later, does nothing. With one bit of its counter changed, its MIC is wrong.
3600000 hear 5 hall 33
3600001 inject 010800FFFFFFFF8C380200700103000000603C4B0B00
3600002 hear 6 hall 33
# The door switch is taken away: Decommissioning (E1). What it sends then is nobody's.
3700000 press door E1
3700003 hear 7 hall 52
3700010 press door 20
3700013 hear 8 hall 52
# Who is paired with the hall: the door's row stays, not live, so that its counters are never accepted again.
3800000 table hall
