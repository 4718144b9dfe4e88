#!/usr/bin/env bash
# seek on every input tests/seek/*.in prints exactly the text beside it, tests/seek/*.out, and nothing on standard error, and
# ends with status 0. The outputs were written by the independent model tests/seek_model.py.
set -u
cd "$(dirname "$0")/.." || exit 2
passed=0
failed=0
room=$(mktemp -d) || exit 2
trap 'rm -rf "$room"' EXIT
bin/seek </dev/null >/dev/null || exit 2
for input in tests/seek/*.in; do
  if bin/seek <"$input" >"$room/out" 2>"$room/err" && [ ! -s "$room/err" ] && cmp -s "$room/out" "${input%.in}.out"; then
    passed=$((passed + 1))
  else
    echo "$input: seek does not print ${input%.in}.out"
    failed=$((failed + 1))
  fi
done
echo "$passed passed, $failed failed"
[ "$failed" -eq 0 ] && [ "$passed" -gt 0 ]
