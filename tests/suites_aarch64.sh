# How tests/check_aarch64 runs the tests of Python's and Node's packages under qemu-user. FIRTHNAPKIN_AARCH64 names a folder with
# Debian's python3 and nodejs for arm64. It is sourced by that script, after tests/library.sh and scripts/building.sh.
# shellcheck shell=bash

# is_there PROGRAM: whether the folder has it.
is_there() {
    [ -x "${FIRTHNAPKIN_AARCH64:-/nowhere}/usr/bin/$1" ] && return
    skip "no $1 for aarch64: FIRTHNAPKIN_AARCH64 may name a folder with Debian's packages for arm64"
    return 1
}

# wrap PROGRAM: a program in $folder that runs this one of the folder, and that it starts itself by, since this machine's kernel may
# run nothing for aarch64.
wrap() {
    printf '#!/bin/sh\nexec "%s" -0 "$0" -L "%s" "%s" "$@"\n' "$qemu" "$FIRTHNAPKIN_AARCH64" "$FIRTHNAPKIN_AARCH64/usr/bin/$1" \
        > "$folder/$1" && chmod +x "$folder/$1"
}

# build_wheel: builds the package of Python for aarch64 into $folder/site.
build_wheel() {
    write_header "$folder/headers" aarch64 && has_sizes "$compiler" "$folder/headers" && cd "$root/bindings/python" || return
    _PYTHON_HOST_PLATFORM=linux-aarch64 CC=$compiler CPATH=$folder/headers "$python" setup.py --quiet build --build-base "$folder/build" \
        bdist_wheel --bdist-dir "$folder/unpacked" --plat-name linux_aarch64 --dist-dir "$folder" &&
        "$python" -m zipfile -e "$folder"/firthnapkin-*_aarch64.whl "$folder/site"
}

suite_of_python() {
    is_there python3 || return
    find_python
    if [ -z "$python" ]; then
        skip 'no python3 with setuptools, wheel and Python.h'
    elif ! (build_wheel) > "$folder/built" 2>&1; then
        cat "$folder/built"
        fails 'the package of Python is not built for aarch64'
    else
        wrap python3
        installed "$("$folder/python3" -c 'import platform, sys; print(platform.machine(), sys.executable)')" "aarch64 $folder/python3" \
            "what Python runs on"
        FIRTHNAPKIN_IS_EMULATED=1 PYTHONPATH=$folder/site counted "$folder/python3" -B "$root/bindings/python/tests"
    fi
}

suite_of_node() {
    is_there node || return
    if ! command -v node > "$folder/found"; then
        skip 'no node'
    elif ! CC=$compiler in_folder "$root/bindings/node" node build.js arm64 > "$folder/built" 2>&1; then
        if grep -q "comes with Node's headers" "$folder/built"; then
            skip "node's headers are not there"
        else
            cat "$folder/built"
            fails "node's addon is not built for aarch64"
        fi
    else
        wrap node
        # Node asks the system for its path.
        printf 'process.execPath = "%s";\n' "$folder/node" > "$folder/path.js"
        export NODE_OPTIONS="--require $folder/path.js" FIRTHNAPKIN_IS_EMULATED=1
        installed "$("$folder/node" -p 'process.arch + " " + process.execPath')" "arm64 $folder/node" 'what Node runs on'
        # A build for another processor doesn't write it.
        in_folder "$root/bindings/node" "$folder/node" -e \
            'require("fs").writeFileSync("lib/limits.d.ts", require("./lib/limits").declaration())' || fails 'lib/limits.d.ts'
        tested 'node --test for arm64' '^ok ' '^not ok ' in_folder "$root/bindings/node" "$folder/node" --test --test-reporter=tap test
        unset NODE_OPTIONS FIRTHNAPKIN_IS_EMULATED
    fi
}
