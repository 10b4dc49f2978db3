#!/usr/bin/env bash
# row: the numbers of a row, each as its bit pattern and its value, and what is refused.
. "$(dirname "$0")/common.sh" || exit 1
early=$made/early.cs
write_early "$early"

expect 0 row site.cs 1 1 <<'END'
41480000 12.5
7fc00000 NaN
c2f6e666 -123.45
END
says ''
expect 0 row site.cs 2 3 4 <<'END'
7f800000 inf
ff800000 -inf
ff800001 NaN
END
expect 0 row site.cs 2 5 6 <<'END'
80000000 -0
3f800000 1
00000001 0.000000000000000000000000000000000000000000001
7f7fffff 340282350000000000000000000000000000000
3dcccccd 0.1
4b800001 16777218
END
expect 0 row site.cs 2 7 <<'END'
3f800000 1
3f000000 0.5
3e800000 0.25
END
for asked in '0 1' '3 1' '1 0' '1 8'; do
  # shellcheck disable=SC2086
  expect 1 row site.cs $asked </dev/null
  says 'site.cs: refused 16: no such cell or row (call), block 0, place 0'
done
expect 1 row m.cs 1 7 </dev/null
says 'm.cs: refused 16: no such cell or row (call), block 0, place 0'
expect 1 row site.cs 9 9 3 </dev/null
says 'site.cs: refused 37: layout unknown at this level (call), block 0, place 0'
expect 1 row site.cs 9 9 0 </dev/null
says 'site.cs: refused 19: level (call), block 0, place 0'
expect 1 row site.cs 1 1 7 </dev/null
says 'site.cs: refused 19: level (call), block 0, place 0'
expect 1 row damaged/extent-off.cs 1 1 7 </dev/null
says 'damaged/extent-off.cs: refused 4: extents disagree (header), block 0, place 12'
expect 1 row damaged 1 1 </dev/null
says 'damaged: cannot be read: Is a directory (os error 21)'
expect 1 row site.cs 1 </dev/null
complains 'kutsvame: wrong count of words: row'
expect 1 row site.cs 1 1 6 6 </dev/null
complains 'kutsvame: wrong count of words: row'
expect 1 row site.cs one 1 </dev/null
complains 'kutsvame: no decimal number: one'
expect 1 row site.cs 1 1st x </dev/null
complains 'kutsvame: no decimal number: 1st'
expect 1 row site.cs 1 1 six </dev/null
complains 'kutsvame: no decimal number: six'

# a file of version 1
expect 0 row "$early" 31 3 1 < <(yes '00000000 0' | head -n 512)
expect 0 row "$early" 31 6 1 < <(yes '00000000 0' | head -n 1024)

exit "$failed"
