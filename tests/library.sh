# What the scripts that test the library for C share. It is sourced, with the repository's folder in $root, a folder for temporary
# files in $folder, the compiler of C in $compiler, and in $tools what the names of its binutils begin with.
# shellcheck shell=bash

# The flags by which a program catches what is asked of the allocator.
WRAPPED=-Wl,--wrap=malloc,--wrap=realloc,--wrap=free
. "$root/tests/counting.sh"

# compiled NAME FLAG ..: compiles a program of tests/c, and fails if it doesn't compile.
compiled() {
    local name=$1
    shift
    if ! "$compiler" -std=c99 -Wall -Wextra -O1 -g -o "$folder/$name" "$root/tests/c/$name.c" "$@" 2> "$folder/errors"; then
        cat "$folder/errors"
        fails "tests/c/$name.c does not compile"
        return 1
    fi
}

# installed FOUND WANTED WHAT
installed() {
    if [ "$1" = "$2" ]; then passes; else fails "$3: $1, not $2"; fi
}

# in_folder FOLDER COMMAND ..
in_folder() {
    (cd "$1" && shift && "$@")
}

# gives LIBRARY: checks that the archive or the shared library has the calls of the header, and no other name.
gives() {
    local seen
    seen=$("${tools}nm" -g --defined-only $([[ $1 = *.so* ]] && echo -D) "$1" | awk 'NF == 3 { print $3 }' | sort | tr '\n' ' ')
    installed "$seen" "$(printf 'firthnapkin_%s ' canonical count excerpt message parse parse_complexities parse_type parse_value tokens version)" \
        "what $1 gives"
}

# takes ARCHIVE: checks that the archive needs the allocator and what moves memory, and nothing else.
takes() {
    local beyond
    beyond=$("${tools}nm" -u "$1" | awk 'NF == 2 { print $2 }' |
        grep -vx -e _GLOBAL_OFFSET_TABLE_ -e malloc -e realloc -e free -e memcpy -e memmove -e memset -e memcmp -e bcmp)
    installed "$beyond" '' "what $1 takes"
}

# suite_of_rust TARGET: the crate's tests for a target, whose programs run here, or by the runner that cargo is told.
suite_of_rust() {
    if ! command -v cargo > "$folder/found"; then
        skip 'no cargo'
    elif [ ! -d "$(rustc --print sysroot)/lib/rustlib/$1/lib" ]; then
        skip "no library of Rust for $1"
    else
        CARGO_TARGET_DIR=$folder/cargo tested "cargo test for $1" '^test .*\.\.\. ok$' '^test .*\.\.\. FAILED$' \
            in_folder "$root/bindings/rust" cargo test --offline --target "$1" -- ${FIRTHNAPKIN_ROWS:+--include-ignored}
        grep '^test .*\.\.\. ignored' "$folder/output"
    fi
}
