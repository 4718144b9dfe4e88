#!/usr/bin/env bash
# README.md names the files that a reader has to believe, each with its number of lines (`use` lines and empty ones not counted).
# Each other file of a specs folder says in its first line that only inner contracts cite it, or is named in docs/PROMISES.md. And
# each text that an edit of must-fail or of tests/attack/edits replaces stands exactly once in its file, so that it still fits.
set -u
shopt -s nullglob
cd "$(dirname "$0")/.." || exit 2
passed=0
failed=0

# tell RIGHT WORDS..: counts what is right, and says what is not.
tell() {
  local right=$1
  shift
  if [ "$right" = yes ]; then
    passed=$((passed + 1))
  else
    echo "$*"
    failed=$((failed + 1))
  fi
}

listed=$(sed -nE 's/^\| `(crates[^`]*\.antt)` \| ([0-9]+) \|.*/\1 \2/p' README.md)
while read -r file lines; do
  [ "$(grep -cvE '^(use |$)' "$file" 2>/dev/null)" = "$lines" ] && right=yes || right=no
  tell $right "README.md: $file does not have $lines lines"
done <<<"$listed"
for file in crates/*/specs/*.antt; do
  [ "$(basename "$file")" != Lib.antt ] || continue
  if grep -qF "$file " <<<"$listed" || head -n 1 "$file" | grep -q '^-- Inside: ' || grep -qF "$file" docs/PROMISES.md; then right=yes; else right=no; fi
  tell $right "$file: a reader is not told whether to believe it"
done
for edit in crates/*/must-fail/*.edit tests/attack/edits/*/*.edit; do
  crate=$(basename "${edit%/must-fail/*}")
  [[ $edit = crates/* ]] || crate=$(basename "$(dirname "$edit")")
  while IFS= read -r line; do
    case $line in
      'file: '*) file=crates/$crate/${line#file: } ;;
      'old: '*)
        [ "$(grep -cF -e "${line#old: }" "$file" 2>/dev/null)" = 1 ] && right=yes || right=no
        tell $right "$edit: its text does not stand exactly once in $file"
        ;;
    esac
  done <"$edit"
done
[ "$passed" -gt 0 ] || failed=$((failed + 1))
echo "$passed passed, $failed failed"
[ "$failed" -eq 0 ]
