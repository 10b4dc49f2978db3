#!/usr/bin/env bash
# What no contract can say of the program: what it prints, on which stream, and with which status.
# Runs every check in tests/program/ on the program given, or else on the one that bin/kutsvame
# builds, says which failed, and ends with status 1 if any did.
set -u
top=$(cd "$(dirname "$0")/.." && pwd)
program=${1:-}
if [ -z "$program" ]; then
  "$top/bin/kutsvame" >/dev/null || exit 1
  program=$top/crates/kutsvame/out/kutsvame
fi
program=$(realpath -e "$program") || exit 1

failed=()
for check in "$top"/tests/program/*.sh; do
  name=${check##*/}
  if [ "$name" != common.sh ] && ! bash "$check" "$program"; then
    failed+=("$name")
  fi
done
if [ ${#failed[@]} -gt 0 ]; then
  echo "tests/program.sh: FAILED: ${failed[*]}"
  exit 1
fi
echo 'tests/program.sh: all as wanted'
