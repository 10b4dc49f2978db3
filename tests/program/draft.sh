#!/usr/bin/env bash
# draft: the files that a script of calls writes, byte for byte, and that none is written over.
. "$(dirname "$0")/common.sh" || exit 1

# file M: a line of a script may be blank or a comment
cat >"$script" <<'END'
# file M
put FILL 1 2 2 4

put-raw "XTRA" x
  turn
lay x000102030405060708090a0b0c0d0e0f101112131415161718191A1B1C1D1E1F20212223
close
# the last line
END
expect 0 draft "$made/m.cs" "${m[@]}" <<END
0 begin ok
2 put ok
4 put-raw ok
5 turn ok
6 lay ok
7 close ok 160
$made/m.cs: accepted: version 6, 1 range cell of 1 Doppler bin, no quality, data at 124, 2 blocks: FILL, XTRA
END
says ''
same "$made/m.cs" m.cs

# no file is written over but with --force, and no other is left beside it
echo old >"$made/old.cs"
expect 1 draft "$made/old.cs" "${m[@]}" </dev/null
says "$made/old.cs: is there already; it is written over only with --force"
same "$made/old.cs" <(echo old)
expect 0 draft "$made/old.cs" "${m[@]}" --force <<END
0 begin ok
2 put ok
4 put-raw ok
5 turn ok
6 lay ok
7 close ok 160
$made/old.cs: accepted: version 6, 1 range cell of 1 Doppler bin, no quality, data at 124, 2 blocks: FILL, XTRA
END
same "$made/old.cs" m.cs
same <(ls "$made") <(printf 'm.cs\nold.cs\n')
expect 1 draft "$made/nowhere/m.cs" "${m[@]}" <<END
0 begin ok
2 put ok
4 put-raw ok
5 turn ok
6 lay ok
7 close ok 160
$made/nowhere/m.cs: accepted: version 6, 1 range cell of 1 Doppler bin, no quality, data at 124, 2 blocks: FILL, XTRA
END
says "$made/nowhere/m.cs: cannot be written: No such file or directory (os error 2)"

# site.cs, drafted: all kinds of block, and blocks whose bytes are given; the cells from files
tail -c 240 site.cs | head -c 120 >"$made/cell-1"
tail -c 120 site.cs >"$made/cell-2"
cat >"$script" <<END
put TIME 1 2024 2 29 23 59 4629278204471803904 4651127699538968576 13840687554816376832
put LOCA 4630580026239090688 13861732207372009472 4625619029774565376
put RCVI 3 5 13849765122815295488 "AWG 4.01"
put GLRM 3 1 70000 12 7 4621537642612260864 4593671619917905920 4613937818241073152 1
put SUPI 1 0 2 1 24 4619285842798575616 4602678819172646912 -3 300
put FWIN 2 3 4603039107142836552 9218868437227405312
put-raw "FILL" x010202046e65776572
put ZONE "GMT"
put-raw "CITY" x416D65726963612F4C6F7320416E67656C6573000000
put TOOL x5370656374726141766572616765722C09E9312E30
put SITD
put-raw "LOCA" x$(printf '00%.0s' {1..23})
put-raw "TOOL" "no end"
put-raw x52435649 x00000001000000010000000000000000$(printf '78%.0s' {1..32})
put-raw x5355004d x0000000000
put LOCA 9221120237041090561 18442240474082181120 9223372036854775808
turn
lay @$made/cell-1
lay @$made/cell-2
close
END
expect 0 draft "$made/site.cs" 6 2 3 2 3786912000 1094861636 15 1 0 1095237632 1073741824 3267887104 1 4294967294 1069547520 10 \
  1129534295 825110528 3 3758096384 <<END
0 begin ok
$(for line in {1..16}; do
  case $line in 7 | 9 | 12 | 13 | 14 | 15) echo "$line put-raw ok" ;; *) echo "$line put ok" ;; esac
done)
17 turn ok
18 lay ok
19 lay ok
20 close ok 824
$made/site.cs: accepted: version 6, 2 range cells of 3 Doppler bins, quality, data at 584, 16 blocks: TIME, LOCA, RCVI, GLRM, SUPI, FWIN, FILL, ZONE, CITY, TOOL, SITD, LOCA, TOOL, RCVI, SU?M, LOCA
END
says ''
same "$made/site.cs" site.cs

# cells of 73728 bytes each, for which the buffer has to grow; with a CITY, 3 * 73728 + 104 + 13
# bytes
head -c 73728 <(yes 'ebb and flow') >"$made/cell"
printf '%s\n' 'put CITY x313233343536' turn "lay @$made/cell" "lay @$made/cell" "lay @$made/cell" close >"$script"
read -ra large <<<"6 1 2048 3 $m_values"
expect 0 draft "$made/large.cs" "${large[@]}" <<END
0 begin ok
1 put ok
2 turn ok
3 lay ok
4 lay ok
5 lay ok
6 close ok 221303
$made/large.cs: accepted: version 6, 3 range cells of 2048 Doppler bins, no quality, data at 119, 1 block: CITY
END
same <(tail -c 221184 "$made/large.cs") <(cat "$made/cell" "$made/cell" "$made/cell")

# versions 4 and 5, which have no blocks
for version in 4 5; do
  cat >"$script" <<END
put FILL 1 2 2 4
turn
lay "twenty-seven bytes and then some more"
lay "thirty-six bytes, as a cell must be."
lay "thirty-six bytes, as a cell must be."
close
END
  case $version in
    4) read -ra start <<<"4 1 1 1 7 1212240450 0 0 0 0 0 0 0 1 0" ;;
    5) read -ra start <<<"5 1 1 1 $m_values" ;;
  esac
  expect 1 draft "$made/early.cs" "${start[@]}" <<END
0 begin ok
1 put refused 33 layer 5 block 0 place 0
2 turn ok
3 lay refused 17 layer 5 block 0 place 36
4 lay ok
5 lay refused 38 layer 5 block 0 place 1
6 close ok $((version == 4 ? 108 : 136))
END
  says 'kutsvame: line 1: refused: put'
  absent "$made/early.cs"
  sed -i -e 1d -e /twenty/d "$script"
  sed -i -e 3d "$script"
  expect 0 draft "$made/early.cs" "${start[@]}" <<END
0 begin ok
1 turn ok
2 lay ok
3 close ok $((version == 4 ? 108 : 136))
$made/early.cs: accepted: version $version, 1 range cell of 1 Doppler bin, no quality, data at $((version == 4 ? 72 : 100)), 0 blocks
END
  rm -f "$made/early.cs"
done

exit "$failed"
