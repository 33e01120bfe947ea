# For other scripts to read with '.': the kit's own compiler, linker and loader, called as rt calls them.
# The kit is for x86-64 Linux, and so is what is built. Nothing needs to be installed beside the kit, whose
# rt runs on python3. kit_archive, kit_program and kit_compile are called at the top of the repository.

command -v rt >/dev/null || {
    echo "$0: the Rattle kit's command, rt, is not on this machine" >&2
    exit 2
}
# by itself, since a failure inside another command's words would go unseen
kit_guide=$(rt doc)
kit=$(dirname "$kit_guide")
kit_tools=$kit/toolchain
kit_target=x86_64-unknown-linux-gnu

# kit_archive: proves the library and builds its archive, as its sources stand. What rt says is shown
# only if it fails.
kit_archive() {
    mkdir -p target
    tools/staticlib siprovault </dev/null >target/staticlib.log 2>&1 || {
        cat target/staticlib.log >&2
        return 1
    }
}

# kit_program NAME: proves the program and builds target/bin/NAME, as its sources stand. It is built by being
# run, on empty input. It takes its place in one step, since the one that was there may be running.
kit_program() {
    (CDPATH= cd -- "crates/$1" && exec rt run </dev/null) && mkdir -p target/bin || return
    cmp -s "crates/$1/out/$1" "target/bin/$1" ||
        { cp "crates/$1/out/$1" "target/bin/$1.new" && mv "target/bin/$1.new" "target/bin/$1"; }
}

# kit_compile WORDS: clang, with the declarations in tests/libc, since the kit has no C headers
kit_compile() {
    "$kit_tools/bin/clang" --target=$kit_target -Wall -Wextra -Werror -nostdinc \
        -isystem tests/libc -Iinclude "$@"
}

# kit_link PROGRAM FILES: a program of object files and archives
kit_link() {
    kit_linked=$1
    shift
    "$kit/bin/rattle-link" --target $kit_target --toolchain "$kit_tools" -o "$kit_linked" "$@"
}

# kit_tell PROGRAM COMMAND WORDS: the command, with the words that run the program behind its own
kit_tell() (
    kit_told=$1
    shift
    exec "$@" "$kit_tools/lib/ld-linux-x86-64.so.2" --library-path "$kit_tools/lib" "$kit_told"
)

# kit_run PROGRAM WORDS: the program, given the words
kit_run() (
    exec "$kit_tools/lib/ld-linux-x86-64.so.2" --library-path "$kit_tools/lib" "$@"
)
