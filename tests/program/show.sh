#!/usr/bin/env bash
# show: files of all kinds of block and of early versions at each level, and what is refused.
. "$(dirname "$0")/common.sh" || exit 1
early=$made/early.cs
write_early "$early"

expect 0 show site.cs <<'END'
version 6, read at level 6
data at 584
range cells 2, Doppler bins 3, first range cell 4294967294, channels 3, quality
field 1 nDateTime: 3786912000
field 2 nCsKind: 2
field 3 nSiteCodeName: 1094861636 "ABCD"
field 4 nCoverMinutes: 15
field 5 bDeletedSource: 1
field 6 bOverrideSrcInfo: 0
field 7 fStartFreqMHz: 41480000 12.5
field 8 fRepFreqHz: 40000000 2
field 9 fBandwidthKHz: c2c80000 -100
field 10 bSweepUp: 1
field 11 nDopplerCells: 3
field 12 nRangeCells: 2
field 13 nFirstRangeCell: 4294967294
field 14 fRangeCellDistKm: 3fc00000 1.5
field 15 nOutputInterval: 10
field 16 nCreateTypeCode: 1129534295 "CSSW"
field 17 nCreatorVersion: 825110528 "1.0?"
field 18 nActiveChannels: 3
field 19 nSpectraChannels: 3
field 20 nActiveChanBits: 3758096384
block 1 TIME at 104, size 31: mark 1, year 2024, month 2, day 29, hour 23, minute 59, seconds 30.5, coverage 900, utc -5
block 2 LOCA at 143, size 24: latitude 38.25, longitude -123.0625, altitude 17.5
block 3 RCVI at 175, size 48: receiver 3, antenna 5, gain -20.25, firmware "AWG 4.01"
block 4 GLRM at 231, size 39: method 3, version 1, points 70000, times 12, segments 7, point_power 9.5, range_power 0.125, range_bin 3, remove_dc 1
block 5 SUPI at 278, size 28: method 1, version 0, mode 2, debug_mode 1, cells 24, power 6.75, range_bin 0.5, banding -3, smoothing 300
block 6 FWIN at 314, size 18: range 2, doppler 3, range_parameter 0.54, doppler_parameter inf
block 7 FILL at 340, size 9: range_method 1, range_multiple 2, doppler_method 2, doppler_multiple 4; bytes behind 5
block 8 ZONE at 357, size 4: "GMT"
block 9 CITY at 369, size 22: "America/Los Angeles"; bytes behind 2
block 10 TOOL at 399, size 22: "SpectraAverager,??1.0"
block 11 SITD at 429, size 1: ""
block 12 LOCA at 438, size 23: refused 13: record short (block), block 12, place 469
block 13 TOOL at 469, size 6: refused 14: text without zero (block), block 13, place 477
block 14 RCVI at 483, size 48: refused 14: text without zero (block), block 14, place 507
block 15 SU?M at 539, size 5: unknown kind
block 16 LOCA at 552, size 24: latitude NaN, longitude -inf, altitude -0
END
says ''
expect 0 show site.cs 1 <<'END'
version 6, read at level 1
data at 584
layout unknown at this level
field 1 nDateTime: 3786912000
blocks are not seen at this level
END
expect 0 show site.cs 3 <<'END'
version 6, read at level 3
data at 584
layout unknown at this level
field 1 nDateTime: 3786912000
field 2 nCsKind: 2
field 3 nSiteCodeName: 1094861636 "ABCD"
blocks are not seen at this level
END
expect 0 show version-4-quality.cs 5 <<'END'
version 4, read at level 5
data at 72
range cells 3, Doppler bins 2, first range cell 1, channels 3, quality
field 1 nDateTime: 0
field 2 nCsKind: 2
field 3 nSiteCodeName: 1212240450 "HARB"
field 4 nCoverMinutes: 0
field 5 bDeletedSource: 0
field 6 bOverrideSrcInfo: 0
field 7 fStartFreqMHz: 00000000 0
field 8 fRepFreqHz: 00000000 0
field 9 fBandwidthKHz: 00000000 0
field 10 bSweepUp: 0
field 11 nDopplerCells: 2
field 12 nRangeCells: 3
field 13 nFirstRangeCell: 1
field 14 fRangeCellDistKm: 00000000 0
blocks are not seen at this level
END

expect 0 show "$early" <<'END'
version 1, read at level 6
data at 10
range cells 31, Doppler bins 512, first range cell 1, channels 3, no quality
field 1 nDateTime: 7
this version has no blocks
END
expect 0 show "$early" 1 <<'END'
version 1, read at level 1
data at 10
range cells 31, Doppler bins 512, first range cell 1, channels 3, no quality
field 1 nDateTime: 7
blocks are not seen at this level
END

expect 1 show site.cs 0 </dev/null
says 'site.cs: refused 19: level (call), block 0, place 0'
expect 1 show site.cs 7 </dev/null
says 'site.cs: refused 19: level (call), block 0, place 0'
expect 1 show damaged/head-cut.cs </dev/null
says 'damaged/head-cut.cs: refused 9: block head cut (section), block 2, place 116'
expect 1 show damaged/data-cut.cs 9 </dev/null
says 'damaged/data-cut.cs: refused 11: data cut (file), block 0, place 124'
expect 1 show nowhere.cs </dev/null
says 'nowhere.cs: cannot be read: No such file or directory (os error 2)'
expect 1 show </dev/null
complains 'kutsvame: wrong count of words: show'
expect 1 show site.cs 6 6 </dev/null
complains 'kutsvame: wrong count of words: show'
for word in six '' -1 6.0 0x6 18446744073709551616; do
  expect 1 show site.cs "$word" </dev/null
  complains "kutsvame: no decimal number: $word"
done

# a text of ten million bytes: the memory that it takes is that of the file and of one line with it
{
  printf 'SITD'
  word 10000001
  head -c 10000000 /dev/zero | tr '\0' A
  printf '\0'
} >"$room/section"
with_section "$room/section" >"$made/long.cs"
cd "$made" || exit 1
{
  cat <<'END'
version 6, read at level 6
data at 10000113
range cells 1, Doppler bins 1, first range cell 1, channels 3, no quality
field 1 nDateTime: 0
field 2 nCsKind: 1
field 3 nSiteCodeName: 1212240450 "HARB"
field 4 nCoverMinutes: 0
field 5 bDeletedSource: 0
field 6 bOverrideSrcInfo: 0
field 7 fStartFreqMHz: 00000000 0
field 8 fRepFreqHz: 00000000 0
field 9 fBandwidthKHz: 00000000 0
field 10 bSweepUp: 0
field 11 nDopplerCells: 1
field 12 nRangeCells: 1
field 13 nFirstRangeCell: 1
field 14 fRangeCellDistKm: 00000000 0
field 15 nOutputInterval: 0
field 16 nCreateTypeCode: 0 "????"
field 17 nCreatorVersion: 0 "????"
field 18 nActiveChannels: 0
field 19 nSpectraChannels: 3
field 20 nActiveChanBits: 0
END
  printf 'block 1 SITD at 104, size 10000001: "'
  head -c 10000000 /dev/zero | tr '\0' A
  echo '"'
} >"$room/wanted"
expect_within 40500 0 show long.cs <"$room/wanted"
says ''

exit "$failed"
