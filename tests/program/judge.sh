#!/usr/bin/env bash
# judge: a line for each file, for every way in which one can be refused, and for a file that cannot
# be read.
. "$(dirname "$0")/common.sh" || exit 1
cd damaged || exit 1

expect 1 judge empty.cs version-33.cs header-only.cs extent-short.cs extent-off.cs no-bins.cs no-cells.cs four-channels.cs \
  data-cut.cs section-long.cs head-cut.cs block-cut.cs <<'END'
empty.cs: refused 1: too few bytes (file), place 0
version-33.cs: refused 2: version (file), place 0
header-only.cs: refused 1: too few bytes (file), place 0
extent-short.cs: refused 3: extent too small (header), place 68
extent-off.cs: refused 4: extents disagree (header), place 12
no-bins.cs: refused 5: bins (header), place 52
no-cells.cs: refused 6: cells (header), place 56
four-channels.cs: refused 7: channels (header), place 88
data-cut.cs: refused 11: data cut (file), place 124
section-long.cs: refused 8: section too long (header), place 100
head-cut.cs: refused 9: block head cut (section), block 2, place 116
block-cut.cs: refused 10: block data cut (section), block 1, place 108
END
complains ''

# a file that cannot be read, a folder, and then one that can
expect 1 judge nowhere.cs ../damaged ../m.cs <<'END'
nowhere.cs: cannot be read: No such file or directory (os error 2)
../damaged: cannot be read: Is a directory (os error 21)
../m.cs: accepted: version 6, 1 range cell of 1 Doppler bin, no quality, data at 124, 2 blocks: FILL, XTRA
END
complains ''

# site.cs has all kinds of block, and some that cannot be read
cd .. || exit 1
expect 0 judge site.cs <<'END'
site.cs: accepted: version 6, 2 range cells of 3 Doppler bins, quality, data at 584, 16 blocks: TIME, LOCA, RCVI, GLRM, SUPI, FWIN, FILL, ZONE, CITY, TOOL, SITD, LOCA, TOOL, RCVI, SU?M, LOCA
END
says ''

# a million empty blocks: the memory that it takes is that of the file and of the line, and a table
# of the blocks would have no room
for i in {1..1000}; do printf 'XTRA\0\0\0\0'; done >"$room/blocks"
for i in {1..1000}; do cat "$room/blocks"; done >"$room/section"
with_section "$room/section" >"$made/many.cs"
cd "$made" || exit 1
{
  printf 'many.cs: accepted: version 6, 1 range cell of 1 Doppler bin, no quality, data at 8000104, 1000000 blocks: XTRA'
  yes ', XTRA' | head -n 999999 | tr -d '\n'
  echo
} >"$room/wanted"
expect_within 34000 0 judge many.cs <"$room/wanted"
says ''

exit "$failed"
