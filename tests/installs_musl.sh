# How tests/check_installs tries what a release has for musl. FIRTHNAPKIN_MUSL_PYTHON names a Python that is linked with musl,
# FIRTHNAPKIN_MUSL_PYTHON_AARCH64 one for aarch64, and addon-PROCESSOR is a program with musl that has what Node's addon takes:
# tests/c/addon.c. It is sourced by that script.
# shellcheck shell=bash

# has_musl PROCESSOR: whether the release is for this processor, and programs with musl are linked for it and run, by $runner if
# that isn't empty.
has_musl() {
    runner=''
    [ -e "$release/firthnapkin-$version-linux-$1.tar.gz" ] || return
    if ! command -v "$1-linux-musl-gcc" > "$folder/output"; then
        skip "no $1-linux-musl-gcc"
        return 1
    elif [ "$1" = aarch64 ] && ! runner=$(command -v qemu-aarch64-static || command -v qemu-aarch64); then
        skip 'no qemu-aarch64-static'
        return 1
    fi
}

# The archive in the tarballs for C.
musl_c() {
    local processor name runner
    new_folder musl-c
    for processor in x86_64 aarch64; do
        has_musl $processor || continue
        name=firthnapkin-$version-linux-$processor
        tar -xzf "$name.tar.gz" && program "$name/README.md" > names.c
        runs "a program is linked with musl on $processor" $processor-linux-musl-gcc -static names.c "-I$name/include" \
            "$name/lib/libfirthnapkin.a" -o names && same "C's program with musl on $processor" "$($runner ./names)" "$(shown "$name/README.md")"
    done
}

# The module.
musl_go() {
    local processor wanted runner
    new_folder musl-go
    command -v go > "$folder/output" || { skip 'no go, so no module is linked with musl'; return; }
    tar -xzf "firthnapkin-go-$version.tar.gz"
    wanted=$(shown "firthnapkin-go-$version/README.md")
    export GOFLAGS=-mod=readonly GOCACHE=$folder/go-cache GOPATH=$folder/go-path GOPROXY=off
    runs 'go mod init for musl' go mod init user
    runs 'go mod edit for musl' eval "$(block "firthnapkin-go-$version/README.md" 1 | tail -n 1)"
    program "firthnapkin-go-$version/README.md" > main.go
    for processor in x86_64 aarch64; do
        has_musl $processor || continue
        runs "go build with musl on $processor" env CGO_ENABLED=1 GOARCH="$([ $processor = x86_64 ] && echo amd64 || echo arm64)" \
            CC=$processor-linux-musl-gcc go build -ldflags '-linkmode external -extldflags -static' -o user . &&
            same "Go's program with musl on $processor" "$($runner ./user 2>&1)" "$wanted"
    done
}

# with_musl VERSION COMMAND ..: as if this machine's Python and Node were programs of this musl: $standing names the program that
# they are told to be, and this script is its loader.
standing=$folder/with-musl/bin/node
with_musl() {
    printf '#!/bin/sh\necho "musl libc (x86_64)" >&2\necho "Version %s" >&2\nexit 1\n' "$1" > "$folder/ld-musl-here.so.1"
    chmod +x "$folder/ld-musl-here.so.1"
    rm -f "$folder/called"
    FAKE_GLIBC='' LD_PRELOAD=$folder/fake.so CC=$folder/no-compiler "${@:2}" 2>&1
}

# Headers of Node are found beside it.
stand_in_of_musl() {
    mkdir -p "${standing%/*}"
    ln -s "$(realpath "$(command -v node)" | sed 's|/bin/[^/]*$||')/include" "$folder/with-musl/include"
    echo 'int main(void) { return 0; }' |
        "$compiler" -x c -o "$standing" - "-Wl,--dynamic-linker=$folder/ld-musl-here.so.1"
}

# What a machine with an older musl is told.
OLDER='firthnapkin is for Linux on x86-64 or aarch64 with glibc 2.17 or later, or musl 1.2 or later, and this machine is '
OLDER+='Linux on x86_64 with musl 1.1.24'

# The source distribution and the wheel for this processor.
musl_python() {
    local wheel=firthnapkin-$version-cp39-abi3-musllinux_1_2_x86_64.whl unpack='pip install --no-index --no-deps --only-binary=:all:'
    local setup='import sys; sys.executable, __file__ = sys.argv.pop(1), "setup.py"; exec(open(__file__).read())'
    new_folder musl-python
    tar -xzf "firthnapkin-$version.tar.gz" && cd "firthnapkin-$version" || return
    same 'the source distribution with an older musl' "$(with_musl 1.1.24 "$python" -c "$setup" "$standing" --version)" "$OLDER"
    same 'the source distribution with musl' "$(with_musl 1.2.0 "$python" -c "$setup" "$standing" --version)" "$version"
    cd .. && [ -e "$wheel" ] || return
    runs 'pip unpacks the wheel for musl' "$python" -m $unpack --target site --platform musllinux_1_2_x86_64 "$wheel"
    same 'the wheel for musl, with an older one' \
        "$("$python" -m $unpack --target older --platform musllinux_1_1_x86_64 "$wheel" 2>&1 | grep -o 'is not a supported wheel')" \
        'is not a supported wheel'
    same 'the wheel for musl, with glibc' \
        "$("$python" -m $unpack --target glibc "$wheel" 2>&1 | grep -o 'is not a supported wheel')" 'is not a supported wheel'
    if [ -z "${FIRTHNAPKIN_MUSL_PYTHON:-}" ]; then
        skip 'no Python with musl: FIRTHNAPKIN_MUSL_PYTHON may name one, which tests/musl_python builds'
    else
        with_musl_python "$wheel"
    fi
}

# with_musl_python WHEEL: a Python with musl takes this wheel and not that for glibc, and passes the package's tests with it. It builds
# the source distribution.
with_musl_python() {
    runs 'an environment is made with musl' "$FIRTHNAPKIN_MUSL_PYTHON" -m venv environment || return
    program ../python/README.md > main.py
    same 'the wheel for glibc, with musl' \
        "$(environment/bin/pip install firthnapkin-*-manylinux_*_x86_64.whl 2>&1 | grep -o 'is not a supported wheel')" \
        'is not a supported wheel'
    CC=$folder/no-compiler runs 'pip installs the wheel with musl' environment/bin/pip install "$1" || return
    same "Python's program with musl" "$(environment/bin/python main.py 2>&1)" "$(shown ../python/README.md)"
    counted environment/bin/python -B "$here/bindings/python/tests"
    # Its folder had another name when it was built.
    CPATH=$(environment/bin/python -c 'import sysconfig; print(sysconfig.get_path("include"))') CC=x86_64-linux-musl-gcc \
        runs 'pip builds the source distribution with musl' environment/bin/pip install --no-build-isolation --force-reinstall \
        "firthnapkin-$version.tar.gz" || return
    same "Python's program with musl, of the source distribution" "$(environment/bin/python main.py 2>&1)" "$(shown ../python/README.md)"
}

# The wheel for aarch64, unpacked by a Python with musl for that processor, which passes the package's tests with it. That Python is
# run by a script, so pip doesn't see its C library, and is told for what it unpacks.
musl_python_on_aarch64() {
    local wheel=firthnapkin-$version-cp39-abi3-musllinux_1_2_aarch64.whl unpack='pip install --no-index --no-deps --only-binary=:all:'
    local there=${FIRTHNAPKIN_MUSL_PYTHON_AARCH64:-}
    new_folder musl-python-on-aarch64
    [ -e "$wheel" ] || return 0
    if [ -z "$there" ]; then
        skip 'no Python with musl for aarch64: FIRTHNAPKIN_MUSL_PYTHON_AARCH64 may name one, which tests/musl_python builds'
        return
    fi
    runs 'pip unpacks the wheel for musl on aarch64' "$there" -m $unpack --target site --platform musllinux_1_2_aarch64 "$wheel" || return
    program ../python/README.md > main.py
    export PYTHONPATH=$PWD/site FIRTHNAPKIN_IS_EMULATED=1
    same 'what Python with musl runs on' \
        "$("$there" -c 'import os; print(os.uname().machine, "ld-musl-aarch64" in open("/proc/self/maps").read())')" 'aarch64 True'
    same "Python's program with musl on aarch64" "$("$there" main.py 2>&1)" "$(shown ../python/README.md)"
    counted "$there" -B "$here/bindings/python/tests"
    unset PYTHONPATH FIRTHNAPKIN_IS_EMULATED
}

# The package for Node, as it was installed. No Node with musl is here: with an older musl its install script builds no addon, and with
# another it calls the compiler, since this Node doesn't load the addon that is there. That is loaded by the program in Node's place.
musl_node() {
    local build=node_modules/firthnapkin/build.js goes_on='' addon runner
    new_folder musl-node
    runs 'npm init for musl' npm init --yes
    runs 'npm installs it for musl, too' npm install "firthnapkin-$version.tgz" || return
    echo "process.execPath = '$standing';" > standing.js
    [ ! -e node_modules/firthnapkin/firthnapkin.wasm ] || goes_on='. The WebAssembly module is used'
    same "Node's install script with an older musl" "$(with_musl 1.1.24 node -r ./standing.js $build)" \
        "${OLDER/firthnapkin is/"firthnapkin's addon is"}$goes_on"
    if [ -e "$folder/called" ]; then fails "Node's install script calls a compiler with an older musl"; else passes; fi
    with_musl 1.2.0 node -r ./standing.js $build > "$folder/output"
    if [ -e "$folder/called" ]; then passes; else fails "Node's install script with musl: $(tail -n 3 "$folder/output")"; fi
    for addon in x86_64/firthnapkin-musl.node aarch64/firthnapkin-arm64-musl.node; do
        runner=''
        if [ ! -x "$here/addon-${addon%/*}" ]; then
            skip "no program that loads ${addon#*/}"
        elif [ "${addon%/*}" = aarch64 ] && ! runner=$(command -v qemu-aarch64-static || command -v qemu-aarch64); then
            skip "no qemu-aarch64-static, so ${addon#*/} is not loaded"
        else
            counted $runner "$here/addon-${addon%/*}" "node_modules/firthnapkin/${addon#*/}"
        fi
    done
}

# The archive that the build script names, and the program, where Rust's library for that target is.
musl_rust() {
    local target=x86_64-unknown-linux-musl
    new_folder musl-rust
    export CARGO_NET_OFFLINE=true CARGO_TARGET_DIR=$folder/cargo-musl
    runs 'cargo init for musl' cargo init --quiet --name user --vcs none
    runs 'cargo adds it for musl' eval "$(block "$folder/rust.md" 1)" || return
    names_archive $target native
    [ ! -e "firthnapkin-$version/native/aarch64" ] || names_archive aarch64-unknown-linux-musl native/aarch64
    if [ ! -d "$(rustc --print sysroot)/lib/rustlib/$target/lib" ]; then
        skip "no library of Rust for $target"
    else
        program "$folder/rust.md" > src/main.rs
        same "Rust's program with musl" "$(cargo run --quiet --target $target 2>&1)" "$(shown "$folder/rust.md")"
    fi
}

# names_archive TARGET FOLDER: the folder of the archive that the crate's build script names.
names_archive() {
    same "the archive that the crate links for $1" \
        "$(cargo build -vv --target "$1" 2>&1 | sed -n 's|/$||; s|.*rustc-link-search=native=||p')" "$PWD/firthnapkin-$version/$2"
}
