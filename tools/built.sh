# Whether the built program is that of the sources as they stand: a note beside it has the checksums
# of both. For scripts that have set top, the top of the repository.
built=$top/crates/kutsvame/out/kutsvame

# sources_sum: the checksum of all that the program is built from: the crates, their list, and the
# kit
sources_sum() {
  local kit
  kit=$(dirname "$(readlink -f "$(command -v rt)")")/../KIT-ID
  (cd "$top" &&
    find crates -name out -prune -o -type f \( -name '*.rt' -o -name '*.antt' \) -print0 |
    LC_ALL=C sort -z | xargs -0 sha256sum crates.txt "$kit") | sha256sum
}

# note_built SUM: notes that the program was built of the sources with that checksum, unless they
# have changed since
note_built() {
  if [ "$1" = "$(sources_sum)" ]; then
    { echo "$1" && sha256sum <"$built"; } >"$built.of"
  fi
}

# is_built: whether the program is there, and built of the sources as they stand
is_built() {
  local sum
  sum=$(sources_sum) && cmp -s "$built.of" <(echo "$sum" && sha256sum <"$built")
}
