#!/usr/bin/env bash
# run: every call of a script, and every refusal that one can answer: what tests/make-run.py works
# out is printed.
. "$(dirname "$0")/common.sh" || exit 1
# the files are those of data/, a file of version 1, and a cell
copy_data
write_early early.cs
head -c 72 <(yes 'ebb and flow') >cell
expect 0 run "$top/tests/run.script" <"$top/tests/run.expected"
says ''
if [ "$(wc -l <"$top/tests/run.expected")" -lt 400 ]; then
  echo 'tests/run.expected is not whole'
  failed=1
fi
expect 0 judge drafted.cs raised.cs <<'END'
drafted.cs: accepted: version 6, 1 range cell of 1 Doppler bin, no quality, data at 136, 3 blocks: FILL, XTRA, ZONE
raised.cs: accepted: version 6, 3 range cells of 2 Doppler bins, no quality, data at 133, 1 block: SITD
END
same <(ls) <({ printf '%s\n' cell drafted.cs early.cs raised.cs && ls "$data"; } | sort)

exit "$failed"
