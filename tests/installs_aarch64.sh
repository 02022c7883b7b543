# How tests/check_installs tries the files of a release for aarch64, on x86-64: programs are compiled by aarch64-linux-gnu-gcc, and
# run under qemu-user. FIRTHNAPKIN_AARCH64 names a folder with Debian's python3 and nodejs for arm64. It is sourced by that script.
# shellcheck shell=bash

# has_aarch64: whether this machine compiles and runs programs for aarch64; if not, it skips them.
has_aarch64() {
    qemu=$(command -v qemu-aarch64-static || command -v qemu-aarch64) || { skip 'no qemu-aarch64-static'; return 1; }
    libraries=$(aarch64-linux-gnu-gcc -print-file-name=libc.so.6 2> "$folder/output") || { skip 'no compiler for aarch64'; return 1; }
    libraries=$(realpath "${libraries%/*}/..")
    # Debian's own glibc for arm64 would be mixed with the compiler's: the loader of one, the library of the other.
    [ ! -e /lib/ld-linux-aarch64.so.1 ] || libraries=/
}

# runs_there COMMAND ..: runs a program for aarch64. is_there PROGRAM: whether the folder has it; from_folder runs it.
runs_there() {
    "$qemu" -L "$libraries" "$@"
}
is_there() {
    [ -x "${FIRTHNAPKIN_AARCH64:-/nowhere}/usr/bin/$1" ] && return
    skip "no $1 for aarch64: FIRTHNAPKIN_AARCH64 may name a folder with Debian's packages for arm64"
    return 1
}
from_folder() {
    "$qemu" -L "$FIRTHNAPKIN_AARCH64" "$FIRTHNAPKIN_AARCH64/usr/bin/$1" "${@:2}"
}

# newest FILE ..: the newest glibc that these files for aarch64 ask for, and the processor that they are for.
newest() {
    local file
    for file; do
        readelf -h "$file" | sed -n 's/^ *Machine: *//p'
        aarch64-linux-gnu-objdump -T "$file" | sed -n 's/.*(\?GLIBC_\([0-9.]*\).*/\1/p'
    done | sort -Vu | tr '\n' ' '
}

# linked NAME FOLDER: the README's program is linked with the shared library and with the archive below this folder, and runs.
linked() {
    program "$folder/c/README.md" > names.c
    runs "$1: a program is linked" aarch64-linux-gnu-gcc names.c $(pkg-config --cflags --libs firthnapkin) -o names &&
        same "$1: the program" "$(runs_there -E "LD_LIBRARY_PATH=$2/lib" ./names)" "$wanted"
    runs "$1: a program is linked with the archive" aarch64-linux-gnu-gcc names.c $(pkg-config --cflags firthnapkin) \
        "$2/lib/libfirthnapkin.a" -o names && same "$1: the program with the archive" "$(runs_there ./names)" "$wanted"
}

aarch64_c() {
    local name=firthnapkin-$version-linux-aarch64 wanted
    wanted=$(shown "$folder/c/README.md")
    new_folder aarch64-c
    eval "$(block "$folder/c/README.md" 1 | sed 's/x86_64/aarch64/g')"
    linked 'C on aarch64' "$PWD/$name"
    unset PKG_CONFIG_PATH
    same 'the glibc of the library for aarch64' "$(newest "$name/lib/libfirthnapkin.so.0")" '2.17 AArch64 '
    same 'the files for aarch64' "$(cd "$name" && find . -type f -o -type l | LC_ALL=C sort)" './CHANGELOG.md
./LICENSE
./README.md
./include/firthnapkin.h
./lib/libfirthnapkin.a
./lib/libfirthnapkin.so
./lib/libfirthnapkin.so.0
./lib/pkgconfig/firthnapkin.pc
./share/man/man3/firthnapkin.3'
}

# The package of Debian, in a root whose list of packages has glibc for arm64 alone, in the version that it asks for.
aarch64_debian() {
    local root=$folder/arm64 package=firthnapkin_${version}_arm64.deb wanted
    wanted=$(shown "$folder/c/README.md")
    new_folder aarch64-debian
    mkdir -p "$root"/var/lib/dpkg/{info,updates,triggers}
    printf 'amd64\narm64\n' > "$root/var/lib/dpkg/arch"
    printf '%s\n' 'Package: libc6' 'Status: install ok installed' 'Architecture: arm64' 'Version: 2.17' 'Maintainer: nobody' \
        'Description: a stand-in' '' > "$root/var/lib/dpkg/status"
    runs "Debian's package for arm64 is installed" dpkg --root="$root" --log="$folder/log" --install "$package"
    same 'its state on arm64' "$(dpkg-query --admindir="$root/var/lib/dpkg" -Wf '${Status}' firthnapkin:arm64)" 'install ok installed'
    same 'its fields for arm64' "$(dpkg-deb -f "$package" Architecture Depends Description)" 'Architecture: arm64
Depends: libc6 (>= 2.17)
Description: A proved parser of GraphQL'"'"'s executable documents
 A library for C with its header.'
    export PKG_CONFIG_SYSROOT_DIR=$root PKG_CONFIG_LIBDIR=$root/usr/lib/pkgconfig
    export PKG_CONFIG_ALLOW_SYSTEM_CFLAGS=1 PKG_CONFIG_ALLOW_SYSTEM_LIBS=1
    linked "Debian's package for arm64" "$root/usr"
    unset "${!PKG_CONFIG_@}"
}

# The wheel, which pip unpacks for that platform, and no other.
aarch64_python() {
    local wheel=firthnapkin-$version-cp39-abi3-manylinux_2_17_aarch64.whl unpack='pip install --no-index --no-deps --only-binary=:all:'
    new_folder aarch64-python
    runs 'pip unpacks the wheel for aarch64' "$python" -m $unpack --target site --platform manylinux_2_17_aarch64 "$wheel"
    same 'the wheel for aarch64, on an older glibc' \
        "$("$python" -m $unpack --target older --platform manylinux_2_5_aarch64 "$wheel" 2>&1 | grep -o 'is not a supported wheel')" \
        'is not a supported wheel'
    same 'the glibc of the wheel for aarch64' "$(newest site/firthnapkin/*.so)" '2.17 AArch64 '
    is_there python3 || return
    program "$folder/python/README.md" > main.py
    same "Python's program on aarch64" "$(PYTHONPATH=$PWD/site from_folder python3 main.py 2>&1)" "$(shown "$folder/python/README.md")"
    tar -xzf "firthnapkin-$version.tar.gz" && runs 'the source distribution is built for aarch64' within "firthnapkin-$version" build_sources &&
        same "Python's program on aarch64, of the source distribution" \
            "$(PYTHONPATH=$PWD/firthnapkin-$version/built from_folder python3 main.py 2>&1)" "$(shown "$folder/python/README.md")"
}

# Builds the source distribution for aarch64 by this machine's Python, in the folder `built`.
build_sources() {
    write_header "$PWD/headers" aarch64 && has_sizes aarch64-linux-gnu-gcc "$PWD/headers" &&
        _PYTHON_HOST_PLATFORM=linux-aarch64 CC=aarch64-linux-gnu-gcc CPATH=$PWD/headers "$python" setup.py --quiet build --build-lib built
}

# The package for Node, as npm installed it here: it has an addon for each processor.
aarch64_node() {
    new_folder aarch64-node
    runs 'npm init for aarch64' npm init --yes
    runs 'npm installs it for both processors' npm install "firthnapkin-$version.tgz" || return
    same 'the glibc of the addon for aarch64' "$(newest node_modules/firthnapkin/firthnapkin-arm64.node)" '2.17 AArch64 '
    is_there node || return
    program "$folder/node/README.md" > main.js
    rm -f "$folder/called"
    same "Node's program on aarch64" "$(from_folder node main.js 2>&1)" "$(shown "$folder/node/README.md")"
    if [ -e node_modules/firthnapkin/firthnapkin.wasm ]; then
        same "Node's program over WebAssembly on aarch64" "$(FIRTHNAPKIN_WASM=1 from_folder node main.js 2>&1)" \
            "$(shown "$folder/node/README.md")"
        as_module
        same 'the program with the ES module on aarch64' "$(from_folder node main.mjs 2>&1)" "$(shown "$folder/node/README.md")"
    fi
    CC=$folder/no-compiler runs 'its install script on aarch64' from_folder node node_modules/firthnapkin/build.js
    if [ -e "$folder/called" ]; then fails 'its install script calls a compiler on aarch64'; else passes; fi
    echo other > node_modules/firthnapkin/firthnapkin-arm64.node
    CC=aarch64-linux-gnu-gcc runs 'an addon for another Node is built anew on aarch64' \
        node node_modules/firthnapkin/build.js arm64 &&
        same "Node's program on aarch64, built anew" "$(from_folder node main.js 2>&1)" "$(shown "$folder/node/README.md")"
}

# The archive that the build script names, and the program, where Rust's library for that target is.
aarch64_rust() {
    local target=aarch64-unknown-linux-gnu
    new_folder aarch64-rust
    export CARGO_NET_OFFLINE=true CARGO_TARGET_DIR=$folder/cargo-aarch64
    runs 'cargo init for aarch64' cargo init --quiet --name user --vcs none
    runs 'cargo adds it for aarch64' eval "$(block "$folder/rust.md" 1)" || return
    same 'the archive that the crate links on aarch64' \
        "$(cargo build -vv --target $target 2>&1 | sed -n 's/.*rustc-link-search=native=//p')" \
        "$PWD/firthnapkin-$version/native/aarch64"
    same 'the calls of that archive' "$(aarch64-linux-gnu-nm "firthnapkin-$version/native/aarch64/libfirthnapkin.a" | grep -c ' T firthnapkin_')" 10
    if [ ! -d "$(rustc --print sysroot)/lib/rustlib/$target/lib" ]; then
        skip "no library of Rust for $target"
    else
        program "$folder/rust.md" > src/main.rs
        export CARGO_TARGET_AARCH64_UNKNOWN_LINUX_GNU_LINKER=aarch64-linux-gnu-gcc
        export CARGO_TARGET_AARCH64_UNKNOWN_LINUX_GNU_RUNNER="$qemu -L $libraries"
        same "Rust's program on aarch64" "$(cargo run --quiet --target $target 2>&1)" "$(shown "$folder/rust.md")"
    fi
}

# The module, also if it is vendored.
aarch64_go() {
    local wanted module=''
    new_folder aarch64-go
    tar -xzf "firthnapkin-go-$version.tar.gz"
    wanted=$(shown "firthnapkin-go-$version/README.md")
    command -v go > "$folder/output" || { skip 'no go, so no module for aarch64 is tried'; return; }
    export GOFLAGS=-mod=readonly GOCACHE=$folder/go-cache GOPATH=$folder/go-path GOPROXY=off
    runs 'go mod init for arm64' go mod init user
    runs 'go mod edit for arm64' eval "$(block "firthnapkin-go-$version/README.md" 1 | tail -n 1)"
    program "firthnapkin-go-$version/README.md" > main.go
    for module in '' -mod=vendor; do
        [ -z "$module" ] || { runs 'go mod vendor for arm64' go mod vendor && mv "firthnapkin-go-$version" ../unpacked-arm64; }
        runs "go build for arm64 $module" env GOARCH=arm64 CGO_ENABLED=1 CC=aarch64-linux-gnu-gcc go build $module -o user . &&
            same "Go's program on arm64 $module" "$(runs_there ./user 2>&1)" "$wanted"
    done
}
