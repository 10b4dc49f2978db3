#!/usr/bin/env bash
# What the program prints with no argument: its task from start to end, and what it says of the
# built-in example file.
. "$(dirname "$0")/common.sh" || exit 1

expect 0 <<'END'
1. A station's file of version 4 is drafted, with two range cells of four Doppler bins and no quality, and judged:
the draft: accepted: version 4, 2 range cells of 4 Doppler bins, no quality, data at 72, 0 blocks
2. It is raised to version 5 with the values of five fields, and to version 6, which has no more fields:
raise: accepted
raise: accepted
3. It gets four blocks. The ZONE is one as a newer program writes it, with a byte Q behind the text GMT:
add TIME: accepted
add LOCA: accepted
carry ZONE: accepted
add TOOL: accepted
4. Block 1 is a TIME, and cannot be replaced as if it were a LOCA. A refused call changes nothing:
replace block 1: refused 12: key (block), block 1, place 104
5. The ZONE becomes EST5, and the newer program's byte stays behind it:
replace block 3: accepted
block 1 TIME at 104, size 31: mark 0, year 2024, month 1, day 1, hour 0, minute 0, seconds 0, coverage 3600, utc 2
block 2 LOCA at 143, size 24: latitude 58.125, longitude 23.5, altitude 10
block 3 ZONE at 175, size 6: "EST5"; bytes behind 1
block 4 TOOL at 189, size 16: "SpectraTool 7.1"
6. Readers of all levels find the data at one byte:
level 1: data at 213
level 2: data at 213
level 3: data at 213
level 4: data at 213
level 5: data at 213
level 6: data at 213
7. Row 4 of cell 2, the cross spectrum of antennas 1 and 2, as a reader of level 4 saw it after the draft and one of level 6 sees it now:
before: 4120c000 4120d000 4120e000 4120f000 41210000 41211000 41212000 41213000
after: 4120c000 4120d000 4120e000 4120f000 41210000 41211000 41212000 41213000
These are the same numbers. Nothing is saved.
The built-in example file M has 160 bytes. Judged whole, and with one byte changed:
M: accepted: version 6, 1 range cell of 1 Doppler bin, no quality, data at 124, 2 blocks: FILL, XTRA
M with extent 2 = 107 in place of 108: refused 4: extents disagree (header), place 12
M with section size 19 in place of 20: refused 9: block head cut (section), block 2, place 116
M is drafted from nothing: begun with its header, FILL put, XTRA carried, turned to its cell, that laid, and closed:
put: accepted
carry: accepted
lay: accepted
close: 160 bytes
These are the bytes of M.
M is loaded into a working file with room for 200 bytes. Then, one call after the other: it is to be raised, field 4 set to 60,
row 1 of cell 1 stored, a ZONE and a NOTE put behind its blocks, block 2 given two bytes more, block 1 other numbers, and block 4
taken out:
load: accepted
raise: refused 35: nothing to raise (call), block 0, place 0
set: accepted
store: accepted
add: accepted
carry: accepted
lengthen: accepted
replace: accepted
remove: accepted
A damaged copy is loaded over it, and everything else is asked for once more, with what is refused:
load: refused 4: extents disagree (header), block 0, place 12
raise: refused 35: nothing to raise (call), block 0, place 0
set: refused 21: steering field (call), block 0, place 0
store: refused 16: no such cell or row (call), block 0, place 0
add: refused 15: text unfit (call), block 0, place 1
carry: refused 32: capacity (call), block 0, place 201
lengthen: refused 34: no such block (call), block 0, place 0
replace: refused 12: key (block), block 3, place 126
remove: refused 34: no such block (call), block 0, place 0
What readers of all levels find then in its 174 bytes:
level 1: data at 138, field 4 refused 20: level too low (call), block 0, place 0
level 2: data at 138, field 4 refused 20: level too low (call), block 0, place 0
level 3: data at 138, field 4 refused 20: level too low (call), block 0, place 0
level 4: data at 138, field 4 nCoverMinutes: 60
level 5: data at 138, field 4 nCoverMinutes: 60
level 6: data at 138, field 4 nCoverMinutes: 60
block 1 FILL at 104, size 4: range_method 1, range_multiple 2, doppler_method 2, doppler_multiple 8
block 2 XTRA at 116, size 2: unknown kind
block 3 ZONE at 126, size 4: "GMT"
END
complains ''

exit "$failed"
