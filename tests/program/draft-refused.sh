#!/usr/bin/env bash
# draft: what begin refuses, and blocks, cells and a close that are refused and write no file.
. "$(dirname "$0")/common.sh" || exit 1

# begin's refusals, the first that holds
: >"$script"
while read -r number place start; do
  read -ra words <<<"$start"
  expect 1 draft "$made/no.cs" "${words[@]}" < <(echo "0 begin refused $number layer 5 block 0 place $place")
  says 'kutsvame: line 0: refused: begin'
done <<END
2 0 3 1 0 0
2 0 7 1 1 1 $m_values
5 0 6 1 0 0 $m_values
5 0 6 1 32769 1 $m_values
6 0 6 1 1 0
6 0 4 1 32768 8193 $m_values
17 16 6 1 1 1
17 16 5 1 1 1 $m_values 0
17 11 4 1 1 1 $m_values
END

# texts that cannot be written, cells that are missing, and a close that comes later
cat >"$script" <<END
put ZONE "$(printf 'z%.0s' {1..255})"
put ZONE "$(printf 'z%.0s' {1..256})"
put RCVI 1 1 0 "thirty-two bytes, which is one m"
put RCVI 1 1 0 "thirty-one bytes, as it should."
put TOOL x6100
put TIME 1 2 3 4 5 6 7 8 9 "late"
turn
close
lay x
lay "thirty-six bytes, as a cell must be."
close
END
expect 1 draft "$made/no.cs" "${m[@]}" <<'END'
0 begin ok
1 put ok
2 put refused 15 layer 5 block 0 place 255
3 put refused 15 layer 5 block 0 place 31
4 put ok
5 put refused 15 layer 5 block 0 place 1
6 put refused 15 layer 5 block 0 place 0
7 turn ok
8 close refused 38 layer 5 block 0 place 0
9 lay refused 17 layer 5 block 0 place 36
10 lay ok
11 close ok 460
END
says 'kutsvame: line 2: refused: put'

exit "$failed"
