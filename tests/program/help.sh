#!/usr/bin/env bash
# help: the whole text, that of each verb, and the words that name no verb.
. "$(dirname "$0")/common.sh" || exit 1
cd damaged || exit 1

# the help text: its parts as they stand in the source, in order, a blank line between two; and each
# of them for its verb
help_part() {
  sed -n "/^const $1: &str/,/^\";/p" "$top/crates/kutsvame/src/help.rt" | sed -e 1d -e '$d'
}
whole_help() {
  help_part USAGE
  for part in JUDGE SHOW ROW DRAFT RUN RAISE ADD STATUS; do
    echo
    help_part "$part"
  done
}
for word in help --help -h; do
  expect 0 "$word" < <(whole_help)
  complains ''
done
for verb in judge show row draft run raise add; do
  expect 0 help "$verb" < <(help_part "${verb^^}")
  says ''
done
expect 0 help help < <(help_part USAGE)
expect 1 help sing </dev/null
complains 'kutsvame: unknown word: sing'
expect 1 help judge show </dev/null
complains 'kutsvame: wrong count of words: help'
expect 1 judge </dev/null
complains 'kutsvame: no file is named: judge'
expect 1 sing </dev/null
complains 'kutsvame: unknown word: sing'
expect 1 Judge ../m.cs </dev/null
complains 'kutsvame: unknown word: Judge'

exit "$failed"
