# To be sourced: C programs for the archive's machine, x86-64 Linux, compiled and run by the Rattle kit alone. The kit's folder is
# that of the page that `rt doc` names.
kit=$(dirname "$(rt doc)")
kit_tools=$kit/toolchain
kit_target=x86_64-unknown-linux-gnu
archive=crates/host/out/libhost.a

# build_archive: proves and builds the archive.
build_archive() {
    (cd crates/host && rt lib)
}

# kit_cc OUT SOURCE [FLAG..]: compiles a C program and links it with the archive.
kit_cc() {
    kit_out=$1 kit_source=$2
    shift 2
    "$kit_tools/bin/clang" --target=$kit_target -nostdinc -isystem host/freestanding -Iinclude -std=c99 -O2 -fPIC \
        -Wall -Wextra -Werror "$@" -c "$kit_source" -o "$kit_out.o" &&
        "$kit/bin/rattle-link" --target $kit_target --toolchain "$kit_tools" -o "$kit_out" "$kit_out.o" $archive
}

# kit_words: the words that run a program, which stands behind them, over the kit's C library.
kit_words() {
    echo "$kit_tools/lib/ld-linux-x86-64.so.2" --library-path "$kit_tools/lib"
}

# kit_run PROGRAM [WORD..]: runs it.
kit_run() {
    $(kit_words) "$@"
}
