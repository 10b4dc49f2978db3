#!/usr/bin/env bash
# draft: the lines of a script, and the arguments, that make no call.
. "$(dirname "$0")/common.sh" || exit 1

# misuse LINE TEXT: the script's last line is not done, and says so; the lines before it are
misuse() {
  expect 1 draft "$made/no.cs" "${m[@]}" < <(
    echo '0 begin ok'
    head -n "$(($1 - 1))" "$script" | tr -d '\r' | cut -d ' ' -f 1 | awk '{print NR, $1, "ok"}' | sed -e '/close/s/$/ 140/'
  )
  says "kutsvame: line $1: $2"
}

while IFS='|' read -r text why; do
  echo "$text" >"$script"
  misuse 1 "$why"
done <<END
lay x00|no call at this stage: lay
close|no call at this stage: close
begin|no call at this stage: begin
Put FILL 1 2 2 4|no call at this stage: Put
"put" FILL 1 2 2 4|no call at this stage: "put"
put|a word is missing
put NOTE 1|no kind of block
put FILL 1 2 2|a word is missing
put FILL 1 2 2 256|no decimal number that fits
put FILL 1 2 2 four|no decimal number that fits
put FILL 1 2 2 -4|no decimal number that fits
put TIME 1 65536 3 4 5 6 7 8 9|no decimal number that fits
put SUPI 1 0 2 1 4294967296 0 0 0 0|no decimal number that fits
put SUPI 1 0 2 1 24 0 0 -32769 0|no decimal number that fits
put LOCA 0 0 18446744073709551616|no decimal number that fits
put ZONE GMT|no bytes: neither x and digits, nor a text in quotes, nor @ and a path
put ZONE "GMT|no bytes: neither x and digits, nor a text in quotes, nor @ and a path
put ZONE "G" "MT"|more words than the call takes
put-raw|a word is missing
put-raw "KEY" x|no key of four bytes
put-raw "KEYED" x|no key of four bytes
put-raw "NOTE"|a word is missing
put-raw "NOTE" x0|an odd count of hexadecimal digits
put-raw "NOTE" x0g|no hexadecimal digit
put-raw "NOTE" x00 x00|more words than the call takes
put-raw "NOTE" @$made/nowhere|$made/nowhere: cannot be read: No such file or directory (os error 2)
put-raw "NOTE" @$made|$made: cannot be read: Is a directory (os error 21)
turn turn|more words than the call takes
END
printf '# caf\xe9\n' >"$script"
misuse 1 'no text in UTF-8'
printf 'turn\r\nlay "thirty-six bytes, as a cell must be."\r\nclose\r\nput "\xe9"\r\n' >"$script"
misuse 4 'no text in UTF-8'
for call in 'put FILL 1 2 2 4' 'put-raw "NOTE" x' turn; do
  printf 'turn\n%s\n' "$call" >"$script"
  misuse 2 "no call at this stage: ${call%% *}"
done
printf 'turn\nclose now\n' >"$script"
misuse 2 'more words than the call takes'
printf 'turn\nlay\n' >"$script"
misuse 2 'a word is missing'
for call in 'lay x' close 'put SITD' turn; do
  printf 'turn\nlay "thirty-six bytes, as a cell must be."\nclose\n%s\n' "$call" >"$script"
  misuse 4 "no call at this stage: ${call%% *}"
done

# a script that ends before close, and one that is empty
printf 'put SITD\nturn\n# and no more\n' >"$script"
expect 1 draft "$made/no.cs" "${m[@]}" <<'END'
0 begin ok
1 put ok
2 turn ok
END
says 'kutsvame: line 3: the script ends before close'
: >"$script"
expect 1 draft "$made/no.cs" "${m[@]}" < <(echo '0 begin ok')
says 'kutsvame: line 0: the script ends before close'
absent "$made/no.cs"

expect 1 draft </dev/null
complains 'kutsvame: wrong count of words: draft'
expect 1 draft "$made/no.cs" 6 1 1 --force </dev/null
complains 'kutsvame: wrong count of words: draft'
for start in '65536 1 1 1' '6 -1 1 1' '6 1 4294967296 1' '6 1 1 one' '6 1 1 1 4294967296'; do
  # shellcheck disable=SC2086
  expect 1 draft "$made/no.cs" $start </dev/null
  complains "kutsvame: no decimal number: $(grep -Eo -e '65536|-1|4294967296|one' <<<"$start")"
done
absent "$made/no.cs"

exit "$failed"
