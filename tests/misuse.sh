#!/usr/bin/env bash
# What the compiler turns down: a draft that is used against its stages. Each case puts one line
# into a copy of the draft's client, and wants one error of the compiler for it, and no other.
# Nothing is proved.
set -u
top=$(cd "$(dirname "$0")/.." && pwd)
client=crates/draft/src/drafting.rt
copy=$(mktemp -d)
trap 'rm -rf "$copy"' EXIT
tar -C "$top" --exclude=out -cf - crates.txt crates | tar -C "$copy" -xf - || exit 1
# over a library that was never built, rt check first reads the sources alone, and goes no further
# where they have an error
mkdir -p "$copy/crates/never_built/src"
echo '#![tactic(auto)]' >"$copy/crates/never_built/src/lib.rt"
sed -i -e 's/^draft:/draft: never_built/' -e '$a never_built:' "$copy/crates.txt"
failed=0

# turned_down ERROR PLACE LINE: with LINE before the one line that is PLACE, the client is refused
# by ERROR alone
turned_down() {
  local error=$1 place=$2 line=$3 said
  if [ "$(grep -cxF -- "$place" "$top/$client")" != 1 ]; then
    echo "misuse: '$place' is not one line of $client"
    failed=1
    return
  fi
  while IFS= read -r old; do
    if [ "$old" = "$place" ]; then printf '%s\n' "$line"; fi
    printf '%s\n' "$old"
  done <"$top/$client" >"$copy/$client"
  said=$(cd "$copy/crates/draft" && rt check 2>&1 | grep 'error')
  if [ "$(printf '%s\n' "$said" | wc -l)" != 1 ] || ! printf '%s\n' "$said" | grep -Eq -- "^src/drafting.rt:[0-9:]+ error\[$error"; then
    echo "misuse: '$line' is not turned down by '$error' alone, but:"
    printf '%s\n' "$said"
    failed=1
  fi
}

close='    let closed = match draft.close() {'
end='    Ok(Drafted {'
begin='BlockStage::begin(buffer, parts.start, parts.values)?;'
put='draft.put::<K>(buffer, value, parts.text);'
carry='draft.carry(buffer, parts.key, parts.body);'
lay='draft.lay(buffer, parts.cell);'

# a block put or carried after the turn: the cell stage has no such call, and the block stage is
# used up
turned_down 'unknown-method\]: no method named `put` found for type `CellStage`' "$close" "    let _ = $put"
turned_down 'unknown-method\]: no method named `carry` found for type `CellStage`' "$close" "    let _ = $carry"
turned_down 'borrow-e0382\]: .*moved value: `draft`' "$end" "    let mut draft = $begin let turned = draft.turn(); let _ = $put turned.give_up();"
# a cell laid before the turn: the block stage has no such call
turned_down 'unknown-method\]: no method named `lay` found for type `BlockStage`' "$end" "    let draft = $begin let (draft, _) = $lay draft.give_up();"
# a cell laid after closing: the cell stage is used up
turned_down 'borrow-e0382\]: use of moved value: `draft`' "$end" "    let (draft, _) = $lay draft.give_up();"
# a draft that is neither closed nor given up
turned_down 'linear-value-let-go\]: `draft` is let go' "$end" "    let draft = $begin"
exit $failed
