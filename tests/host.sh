#!/usr/bin/env bash
# The archive for C from the host's side: its header, the examples, the worked file of docs/CATALOGUE-FILE.md, a C program of checks, trees
# that are printed in the literature, and random inputs held against an independent model. The C programs are compiled by the Rattle kit
# alone.
# The random inputs go by a seed; SEED and INPUTS in the environment set them.
# needs: gcc rustc
set -u
cd "$(dirname "$0")/.." || exit 2
. host/kit.sh
out=target/host
log=$out/log
passed=0
failed=0
mkdir -p $out

# try NAME COMMAND..: one test, passed if the command ends well.
try() {
    local name=$1
    shift
    if "$@" >$log 2>&1; then
        passed=$((passed + 1))
    else
        failed=$((failed + 1))
        cat $log
        echo "FAILED $name"
    fi
}

# counted NAME COMMAND..: a program of tests, whose last line is `N passed, M failed`.
counted() {
    local name=$1 status last
    shift
    "$@" 2>&1 | tee $log
    status=${PIPESTATUS[0]}
    last=$(tail -n 1 $log)
    if [[ $last =~ ^([0-9]+)\ passed,\ ([0-9]+)\ failed$ ]] && [ "$status" -eq 0 ]; then
        passed=$((passed + BASH_REMATCH[1]))
    else
        failed=$((failed + 1))
        echo "FAILED $name (status $status)"
    fi
}

# drive SERVER [FLAG..]: the random inputs, against that server.
drive() {
    local server=$1
    shift
    $out/drive --seed "${SEED:-20260101}" "$@" $(kit_words) "$server"
}

# noticed KINDS SERVER [FLAG..]: the model and that server differ on an input of each of so many kinds, of the eleven that there are: build,
# find, replace, runs of replacements, sheet, catalogue read, catalogue write, small files with each byte changed, bars read, bars write,
# every short list.
noticed() {
    local kinds=$1
    shift
    drive "$@" >$out/noticed
    [ "$(grep -Ec '^FAILED: seed [0-9]+, input' $out/noticed)" -eq "$kinds" ]
}
header_as() { echo '#include <sparrowhem.h>' | "$@" -Wall -Wextra -Werror -Iinclude -fsyntax-only -; }
texts_of_scope() {
    kit_run $out/texts | diff <(sed -nE '/^## Refusals/,/^### /{ /`seek`/d; s/^\| ([0-9]+) \| ([^|]+) \|.*/\1 \2/p }' docs/SCOPE.md) -
}
# The worked file of the page: its dump as lines, and the bytes, one a line, of the dump and of the table below it.
page=docs/CATALOGUE-FILE.md
dump_lines() { grep -E '^[0-9a-f]{8}  [0-9a-f]{2} ' $page; }
dump_bytes() { dump_lines | cut -c 9- | grep -oE '[0-9a-f]{2}'; }
table_bytes() { sed -nE '/^\| offset /,/^$/s/^\| [0-9]+ \| ([^|]*)\|.*/\1/p' $page | grep -oE '[0-9a-f]{2}'; }
page_written() { kit_run $out/page | diff <(dump_lines) -; }
page_read() {
    printf "$(dump_bytes | sed 's/^/\\x/' | tr -d '\n')" | kit_run $out/page read |
        diff <(grep -oE 'programme [0-9]+: its row starts at [0-9]+ and has [0-9]+ symbols?' $page) -
}
page_table() { diff <(dump_bytes) <(table_bytes); }
example_as_shown() { kit_run $out/shown | diff tests/host/"$1".out -; }
installed() {
    rm -rf "$PWD/$out/prefix"
    sh host/build.sh "$PWD/$out/prefix" && ! grep -q @ $out/prefix/lib/pkgconfig/sparrowhem.pc
}
example_installed() {
    local prefix=$PWD/$out/prefix
    "$out/$1" | diff tests/host/"$1".out - &&
        gcc -std=c99 -I"$prefix/include" -o $out/installed host/"$1".c -L"$prefix/lib" -lsparrowhem && $out/installed | diff tests/host/"$1".out -
}
seek_installed() {
    local prefix=$PWD/$out/prefix
    env -i "$prefix/bin/seek" <examples/programme.txt | diff <(printf 'matches 2\nat 1 4 0:2-3\nat 6 9 0:7-8\n') - &&
        cmp man/seek.1 "$prefix/share/man/man1/seek.1" && grep -q "Sparrowhem $(sed -n 's/^Version: //p' "$prefix/lib/pkgconfig/sparrowhem.pc")" man/seek.1
}
# What the archive needs from outside, as docs/HOST.md says.
needs_little() { nm -u $archive | sed -n 's/^ *U //p' | sort -u | diff <(printf 'memcpy\nmemset\n') -; }
# stacked PROGRAM: one that measures the stack, on the rows of the benchmark.
stacked() { "$@" <$out/rows; }
thread_by_gcc() {
    gcc -std=gnu99 -pedantic -O2 -Wall -Wextra -Werror -Iinclude -pthread -o $out/thread tests/host/thread.c $archive
}
rows_of_the_benchmark() { $out/shapes >$out/rows; }
checks_by_gcc() {
    gcc -std=c99 -pedantic -O2 -Wall -Wextra -Werror -Iinclude -o $out/checks_gcc tests/host/checks.c $archive
}

try "the archive is proved and built" build_archive
try "and needs memcpy and memset alone" needs_little
try "the header is C99" header_as gcc -x c -std=c99 -pedantic
try "the header is C11" header_as gcc -x c -std=c11 -pedantic
try "the header is C++" header_as "$kit_tools/bin/clang" --target=$kit_target -nostdinc -isystem host/freestanding -x c++ -std=c++11 -pedantic
for example in example morning exchange bars; do
    try "$example.c, compiled by the kit" kit_cc $out/shown host/$example.c
    try "prints what it should" example_as_shown $example
done
try "the texts of refusals, compiled by the kit" kit_cc $out/texts tests/host/texts.c
try "are those of docs/SCOPE.md" texts_of_scope
try "the worked file of the page, compiled by the kit" kit_cc $out/page tests/host/page.c
try "is what is written" page_written
try "is read" page_read
try "and has the bytes that the page explains" page_table
try "the checks, compiled by the kit" kit_cc $out/checks tests/host/checks.c
counted "the checks" kit_run $out/checks
try "the trees of the literature, compiled by the kit" kit_cc $out/vectors tests/host/vectors.c
counted "the trees of the literature" kit_run $out/vectors
try "the rows of the benchmark, compiled by rustc" rustc --edition 2021 -O -D warnings -o $out/shapes tests/host/shapes.rs
try "are written" rows_of_the_benchmark
try "the stack that build takes, compiled by the kit" kit_cc $out/stack tests/host/stack.c
counted "the stack that build takes" stacked kit_run $out/stack
try "archive, header and seek are installed" installed
for example in example morning exchange bars; do
    try "$example.c, by the machine's own compiler and as installed" example_installed $example
done
try "seek as installed, without the kit, and its man page" seek_installed
try "the checks, compiled by gcc" checks_by_gcc
counted "the checks, by gcc" $out/checks_gcc
try "build on a small thread, compiled by gcc" thread_by_gcc
counted "build on a small thread" stacked $out/thread
try "the server, compiled by the kit" kit_cc $out/serve tests/host/serve.c
try "the model and its inputs, compiled by rustc" rustc --edition 2021 -O -D warnings -o $out/drive tests/host/drive.rs
counted "random inputs" drive $out/serve --inputs "${INPUTS:-220000}"
try "a right server is not found wrong" noticed 0 $out/serve --inputs 500
for byte in 0 4 8 16 24 28 10000000; do
    try "a server with a wrong bit at $byte" kit_cc $out/wrong tests/host/serve.c -DWRONG=$byte
    try "is noticed in each call" noticed 11 $out/wrong --inputs 500
done
# find and sheet write an output, sheet alone results; three kinds have a file and records, three a bar form
for list in OUTPUT:2 RESULTS:1 BYTES:3 ENTRIES:3 BARS:3; do
    try "a server with a wrong bit in ${list%:*}" kit_cc $out/wrong tests/host/serve.c -DWRONG_IN="${list%:*}"
    try "is noticed" noticed "${list#*:}" $out/wrong --inputs 500
done
echo "$passed passed, $failed failed"
[ "$failed" -eq 0 ]
