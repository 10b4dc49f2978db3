#!/usr/bin/env bash
# raise: a file in its next version, and what is refused.
. "$(dirname "$0")/common.sh" || exit 1
copy_data
write_early early.cs

expect 0 raise version-4.cs five.cs 10 1129534295 825110528 3 3758096384 <<'END'
five.cs: raised from version 4 to 5, 316 bytes
five.cs: accepted: version 5, 3 range cells of 2 Doppler bins, no quality, data at 100, 0 blocks
END
says ''
expect 0 raise five.cs six.cs <<'END'
six.cs: raised from version 5 to 6, 320 bytes
six.cs: accepted: version 6, 3 range cells of 2 Doppler bins, no quality, data at 104, 0 blocks
END
same <(tail -c 216 six.cs) <(tail -c 216 version-4.cs)
expect 0 raise early.cs two.cs < <(
  echo 'two.cs: raised from version 1 to 2, 571408 bytes'
  echo 'two.cs: accepted: version 2, 31 range cells of 512 Doppler bins, no quality, data at 16, 0 blocks'
)
rm two.cs five.cs
expect 1 raise six.cs no.cs </dev/null
says 'six.cs: refused 35: nothing to raise (call), block 0, place 0'
expect 1 raise six.cs six.cs </dev/null
says 'six.cs: is there already; it is written over only with --force'
rm six.cs
expect 1 raise version-5-gap.cs no.cs </dev/null
says 'version-5-gap.cs: refused 36: gap (call), block 0, place 0'
expect 1 raise version-4.cs no.cs 1 2 3 4 </dev/null
says 'version-4.cs: refused 17: wrong length or count (call), block 0, place 5'
expect 1 raise version-4.cs no.cs 1 2 3 4 five </dev/null
says 'kutsvame: raise: no decimal number that fits'
expect 1 raise version-4.cs nowhere/no.cs 1 2 3 4 5 </dev/null
says 'nowhere/no.cs: cannot be written: No such file or directory (os error 2)'
expect 1 raise version-4.cs </dev/null
complains 'kutsvame: wrong count of words: raise'
absent no.cs

exit "$failed"
