#!/usr/bin/env bash
# add: a file with one block more, the same by a run, and what is refused.
. "$(dirname "$0")/common.sh" || exit 1
copy_data

expect 0 add m.cs zone.cs ZONE '"GMT"' <<'END'
zone.cs: ZONE added as block 3, 172 bytes
zone.cs: accepted: version 6, 1 range cell of 1 Doppler bin, no quality, data at 136, 3 blocks: FILL, XTRA, ZONE
END
says ''
run_script 0 'make 500 @m.cs' 'add ZONE "GMT"' 'save other.cs' 'add SUPI 1 0 2 1 24 0 0 -3 300' 'save more.cs' < <(
  printf '%s\n' '1 make ok file 160' '2 add ok' '3 save ok 172' '4 add ok' '5 save ok 208'
)
same zone.cs other.cs
expect 0 add zone.cs supi.cs SUPI 1 0 2 1 24 0 0 -3 300 <<'END'
supi.cs: SUPI added as block 4, 208 bytes
supi.cs: accepted: version 6, 1 range cell of 1 Doppler bin, no quality, data at 172, 4 blocks: FILL, XTRA, ZONE, SUPI
END
same supi.cs more.cs
expect 1 add m.cs zone.cs SITD </dev/null
says 'zone.cs: is there already; it is written over only with --force'
same zone.cs other.cs
expect 0 add m.cs zone.cs SITD '"a site, in quotes"' --force <<'END'
zone.cs: SITD added as block 3, 186 bytes
zone.cs: accepted: version 6, 1 range cell of 1 Doppler bin, no quality, data at 150, 3 blocks: FILL, XTRA, SITD
END
expect 0 add zone.cs zone.cs FILL 0 0 0 0 --force <<'END'
zone.cs: FILL added as block 4, 198 bytes
zone.cs: accepted: version 6, 1 range cell of 1 Doppler bin, no quality, data at 162, 4 blocks: FILL, XTRA, SITD, FILL
END
rm zone.cs other.cs more.cs supi.cs
expect 1 add version-5-gap.cs no.cs SITD </dev/null
says 'version-5-gap.cs: refused 33: version lacks it (call), block 0, place 0'
expect 1 add m.cs no.cs TOOL x6100 </dev/null
says 'm.cs: refused 15: text unfit (call), block 0, place 1'
expect 1 add damaged/head-cut.cs no.cs SITD </dev/null
says 'damaged/head-cut.cs: refused 9: block head cut (section), block 2, place 116'
expect 1 add m.cs no.cs NOTE </dev/null
says 'kutsvame: add: no kind of block'
expect 1 add m.cs no.cs FILL 1 2 3 </dev/null
says 'kutsvame: add: a word is missing'
expect 1 add m.cs no.cs ZONE GMT </dev/null
says "kutsvame: add: $no_bytes"
expect 1 add m.cs no.cs </dev/null
complains 'kutsvame: wrong count of words: add'
expect 1 add m.cs </dev/null
complains 'kutsvame: wrong count of words: add'
expect 1 add nowhere.cs no.cs SITD </dev/null
says 'nowhere.cs: cannot be read: No such file or directory (os error 2)'
absent no.cs

exit "$failed"
