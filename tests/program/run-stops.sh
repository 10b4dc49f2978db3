#!/usr/bin/env bash
# run: the lines of a script that are no call, and end the run.
. "$(dirname "$0")/common.sh" || exit 1
copy_data

# stops TEXT WHY: a line that is no call ends the run, behind a buffer made and a draft begun
stops() {
  run_script 1 'make 160 @m.cs' 'begin 200 6 1 1 1 0 1 0 0 0 0 0 0 0 1 0 0 0 0 0 0' "$1" 'version' <<'END'
1 make ok file 160
2 begin ok
END
  says "kutsvame: line 3: $2"
}

while IFS='|' read -r text why; do
  stops "$text" "$why"
done <<END
sing|no call at this stage: sing
Version|no call at this stage: Version
remove 1|no call at this stage: remove
lay x|no call at this stage: lay
close|no call at this stage: close
version 1|more words than the call takes
start|a word is missing
start one|no decimal number that fits
start -1|no decimal number that fits
start 18446744073709551616|no decimal number that fits
start 1 1|more words than the call takes
field 1|a word is missing
field 1 1 1|more words than the call takes
row 6 1|a word is missing
row 6 1 1 1|more words than the call takes
numbers 6 1 1|a word is missing
numbers 6 1 1 9 9|more words than the call takes
block 6|a word is missing
block 6 1 1|more words than the call takes
look 1|a word is missing
look 1 NOTE|no kind of block
look 1 fill|no kind of block
look 1 FILL 1|more words than the call takes
table|a word is missing
table all|no decimal number that fits
bytes 1|a word is missing
bytes 1 2 3|more words than the call takes
judge|a word is missing
judge m.cs|$no_bytes
judge x0|an odd count of hexadecimal digits
judge x0g|no hexadecimal digit
judge @nowhere.cs|nowhere.cs: cannot be read: No such file or directory (os error 2)
judge @damaged|damaged: cannot be read: Is a directory (os error 21)
judge x x|more words than the call takes
make|a word is missing
make 1|a word is missing
make one x|no decimal number that fits
make 1 x x|more words than the call takes
load|a word is missing
load @m.cs x|more words than the call takes
set 1|a word is missing
set 1 4294967296|no decimal number that fits
set 1 1 1|more words than the call takes
store 1 1|a word is missing
store 1 1 x x|more words than the call takes
add|a word is missing
add NOTE 1|no kind of block
add FILL 1 2 3|a word is missing
add FILL 1 2 3 256|no decimal number that fits
add ZONE "a" "b"|more words than the call takes
add ZONE GMT|$no_bytes
carry "NOTE"|a word is missing
carry "NOT" x|no key of four bytes
carry x0001020304 x|no key of four bytes
carry "NOTE" x x|more words than the call takes
lengthen 1|a word is missing
lengthen 1 x x|more words than the call takes
replace 1|a word is missing
replace 1 FILL 1 2 3|a word is missing
replace 1 NOTE|no kind of block
replace FILL 1 2 2 8|no decimal number that fits
drop|a word is missing
drop 1 1|more words than the call takes
raise one|no decimal number that fits
raise 4294967296|no decimal number that fits
begin 200 6 1 1|a word is missing
begin 200 65536 1 1 1|no decimal number that fits
begin 200 6 1 1 1 -1|no decimal number that fits
put NOTE|no kind of block
put-raw "NOTE"|a word is missing
turn 1|more words than the call takes
save|a word is missing
save a.cs b.cs|more words than the call takes
save a.cs --force now|more words than the call takes
END
absent a.cs

# a call with no buffer made, or with no draft begun
while read -r call; do
  run_script 1 '# nothing is made yet' "$call" </dev/null
  says "kutsvame: line 2: no buffer is made yet: ${call%% *}"
done <<'END'
version
bytes 0 1
save m.cs
load @m.cs
table 0
END
for call in 'put SITD' 'put-raw "NOTE" x' turn 'lay x' close; do
  run_script 1 'make 160 @m.cs' "$call" < <(echo '1 make ok file 160')
  says "kutsvame: line 2: no call at this stage: ${call%% *}"
done
run_script 1 'begin 200 7 1 1 1' turn < <(echo '1 begin refused 2 layer 5 block 0 place 0')
says 'kutsvame: line 2: no call at this stage: turn'
printf 'judge x\n# caf\xe9\n' >"$script"
expect 1 run "$script" < <(echo '1 judge refused 1 layer 1 block 0 place 0')
says 'kutsvame: line 2: no text in UTF-8'
expect 1 run </dev/null
complains 'kutsvame: wrong count of words: run'
expect 1 run "$script" "$script" </dev/null
complains 'kutsvame: wrong count of words: run'
expect 1 run nowhere.script </dev/null
says 'nowhere.script: cannot be read: No such file or directory (os error 2)'

exit "$failed"
