#!/usr/bin/env bash
# Each statement, proof and function that docs/PROMISES.md names stands in the file that it names, and where it names a function beside a
# statement, that is what the function ensures; each wrong version that it names, as `CRATE/NAME.edit`, is a file of that crate's must-fail
# folder or of its folder in tests/attack/edits, and not of both; and each of the public calls' own is named there.
set -u
shopt -s nullglob
cd "$(dirname "$0")/.." || exit 2
passed=0
failed=0
while read -r name file; do
  case $file in
    *.rt) shape="^(pub )?(extern \"C\" )?fn $name[<(]" ;; # a function, which is proved to meet its contract
    *) shape="^(abbrev |unfoldable )?(pub )?(record |data )?$name( |$)" ;;
  esac
  if grep -qE "$shape" "$file" 2>/dev/null; then
    passed=$((passed + 1))
  else
    echo "docs/PROMISES.md names $name in $file, which has no such thing"
    failed=$((failed + 1))
  fi
done < <(grep -oE '`[^` ]+` in `[^`]+`' docs/PROMISES.md | sed -E 's/`([^`]+)` in `([^`]+)`/\1 \2/')
ensured() { # NAME FILE: the clauses of what that function ensures
  awk -v head="^(pub )?(extern \"C\" )?fn $1[<(]" '$0 ~ head { inside = 1 } inside && /^    ensures / { print } inside && /^{/ { exit }' "$2"
}
while read -r statement name file; do
  if ensured "$name" "$file" | grep -qw -- "$statement"; then
    passed=$((passed + 1))
  else
    echo "docs/PROMISES.md says that $name in $file ensures $statement"
    failed=$((failed + 1))
  fi
done < <(sed -nE 's/^\|[^|]*\| `([^` ]+)` in `[^`]+\.antt` \| `([^` ]+)` in `([^`]+\.rt)` \|$/\1 \2 \3/p' docs/PROMISES.md)
named=$(grep -oE '`[a-z_]+/[a-z0-9_]+\.edit`' docs/PROMISES.md | tr -d '`' | sort -u)
for edit in $named; do
  files=("crates/${edit%/*}/must-fail/${edit#*/}" "tests/attack/edits/$edit")
  if [ "$(ls "${files[@]}" 2>/dev/null | wc -l)" -eq 1 ]; then
    passed=$((passed + 1))
  else
    echo "docs/PROMISES.md names $edit, which does not stand in one of ${files[*]}"
    failed=$((failed + 1))
  fi
done
for file in crates/{checks,sparrowhem,host}/must-fail/*.edit tests/attack/edits/{checks,sparrowhem,host}/*.edit; do
  edit=${file#crates/}
  edit=${edit#tests/attack/edits/}
  edit=${edit/must-fail\//}
  if grep -qxF "$edit" <<<"$named"; then
    passed=$((passed + 1))
  else
    echo "docs/PROMISES.md does not name $edit"
    failed=$((failed + 1))
  fi
done
[ "$passed" -gt 0 ] || failed=$((failed + 1))
echo "$passed passed, $failed failed"
[ "$failed" -eq 0 ]
