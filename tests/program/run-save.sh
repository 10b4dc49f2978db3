#!/usr/bin/env bash
# run: what save writes, what a refused call leaves, and a script with no call.
. "$(dirname "$0")/common.sh" || exit 1
copy_data

# a file that is saved: never over another but with --force, and nothing is left beside it
run_script 1 'make 160 @m.cs' 'save m.cs' 'version' <<'END'
1 make ok file 160
END
says 'kutsvame: line 2: m.cs: is there already; it is written over only with --force'
same m.cs "$data/m.cs"
run_script 0 'make 200 @m.cs' 'set 1 7' 'save m.cs --force' 'set 1 0' 'save other.cs' 'save other.cs --force' <<'END'
1 make ok file 160
2 set ok
3 save ok 160
4 set ok
5 save ok 160
6 save ok 160
END
says ''
expect 0 show m.cs 1 <<'END'
version 6, read at level 1
data at 124
layout unknown at this level
field 1 nDateTime: 7
blocks are not seen at this level
END
same other.cs "$data/m.cs"
cp other.cs m.cs
rm other.cs
if compgen -G '*.new' >/dev/null; then
  echo 'a file is left beside one that was saved'
  failed=1
fi
run_script 1 'make 160 @m.cs' 'save first.cs' 'save nowhere/m.cs' 'save third.cs' <<'END'
1 make ok file 160
2 save ok 160
END
says 'kutsvame: line 3: nowhere/m.cs: cannot be written: No such file or directory (os error 2)'
same first.cs m.cs
absent third.cs
rm first.cs
run_script 1 'make 100 "no file"' 'save none.cs' < <(echo '1 make ok no file')
says 'kutsvame: line 2: no file is held: save'
absent none.cs

# a refused call ends nothing; a script without a call prints nothing
run_script 0 'judge x' 'judge @m.cs' <<'END'
1 judge refused 1 layer 1 block 0 place 0
2 judge ok version 6 start 124 blocks 2
END
run_script 0 '# nothing' '' '   ' </dev/null
says ''

exit "$failed"
