# How ./c-library installs: what is put below PREFIX, the file for pkg-config, and the list of what was installed. scripts/release
# puts the same files into what it makes for C. It is sourced after scripts/building.sh, with the repository's folder in $root.
# shellcheck shell=bash

# The files of the library: for each its mode, its name below PREFIX, and the file of the repository, where LIBRARY stands for the
# folder of its processor.
FILES='644 include/firthnapkin.h include/firthnapkin.h
644 lib/libfirthnapkin.a LIBRARY/libfirthnapkin.a
755 lib/libfirthnapkin.so.0 LIBRARY/libfirthnapkin.so.0
644 share/man/man3/firthnapkin.3 docs/man/firthnapkin.3'
LIST=share/firthnapkin/installed

# Of another folder pkg-config's flags are no words of a shell, however firthnapkin.pc writes it.
is_tellable() {
    [[ $1 != *[$'\n$()']* && $1 != *[[:space:]] ]]
}

# Installs below $prefix, which is absolute and without `..`, or below $DESTDIR and there below $prefix. It sets $below to the
# folder where it does. False if something couldn't be installed. A program that isn't built of the sources that are there, or for
# $processor, is left out with its man page, and a line on standard error says so.
install_below() {
    local name left='' installed=() why="./prove hasn't built them of these sources"
    [ -z "$processor" ] || why="they are built for x86-64 alone"
    set_folders
    put_library $processor && put_text lib/pkgconfig/firthnapkin.pc "$(package "$(escaped "$prefix")")" || return
    for name in gqlcheck gqlcanon; do
        if [ -z "$processor" ] && is_current "$name"; then put_program "$name" || return; else left+=" $name"; fi
    done
    put_list $left || return
    [ -z "$left" ] || echo "c-library: left out with their man pages, since $why:$left" >&2
}

# Sets $below to the folder below which files are put, and $inside to where that has to be. PREFIX alone may be a link. Within
# $DESTDIR none is followed, since it would lead to a folder of this machine.
set_folders() {
    local stage=${DESTDIR-}
    if [ -z "$stage" ]; then
        below=${prefix%/}
        inside=$(realpath -m -- "$prefix")
    else
        [ "${stage:0:1}" = / ] || stage=$PWD/$stage
        below=$stage${prefix%/}
        inside=$(realpath -m -- "$stage")
        inside=${inside%/}$prefix
    fi
    inside=${inside%/}
}

# put_library [PROCESSOR]: puts the library for x86-64, or for another processor.
put_library() {
    local mode name source
    while read -r mode name source; do
        put "$mode" "$name" "$root/${source/#LIBRARY/out${1:+/$1}}" || return
    done <<< "$FILES"
    ln -sfT libfirthnapkin.so.0 "$below/lib/libfirthnapkin.so" && installed+=(lib/libfirthnapkin.so)
}

put_program() {
    put 755 "bin/$1" "$root/crates/$1/out/$1" && put 644 "share/man/man1/$1.1" "$root/docs/man/$1.1"
}

put_text() {
    put 644 "$1" /dev/stdin <<< "$2"
}

# put MODE NAME FILE: puts a copy of this file below PREFIX. A link in its place is replaced, and a folder that a link leads
# out of PREFIX is refused.
put() {
    local folder=$below/${2%/*}
    if [[ $(realpath -m -- "$folder")/ != "$inside"/* ]]; then
        echo "c-library: a link leads from $folder to another place" >&2
        return 1
    fi
    install -d -- "$folder" && install -m "$1" -T -- "$3" "$below/$2" && installed+=("$2")
}

# put_list LEFT ..: puts the list of what was installed. Its names are below PREFIX, one a line, its own among them. A program
# that was left out may be there from an earlier time; then it stays in the list.
put_list() {
    local program name earlier=()
    for program; do
        for name in "bin/$program" "share/man/man1/$program.1"; do
            if grep -sqxF "$name" "$below/$LIST"; then earlier+=("$name"); fi
        done
    done
    put_text "$LIST" "$(printf '%s\n' "${installed[@]}" "${earlier[@]}" "$LIST" | LC_ALL=C sort)"
}

# escaped PREFIX: the path as firthnapkin.pc names it. Each other character than those of common names is escaped, so that the
# flags are still words of a shell where they are evaluated.
escaped() {
    LC_ALL=C sed 's|[^A-Za-z0-9_./-]|\\&|g' <<< "$1"
}

# package PREFIX: the file for pkg-config. An installed one names an absolute path, since pkg-config is run anywhere, and without
# $DESTDIR, which is no longer there then.
package() {
    cat << END
prefix=$1
includedir=\${prefix}/include
libdir=\${prefix}/lib

Name: firthnapkin
Description: A proved parser of GraphQL's executable documents
URL: $(cat "$root/HOMEPAGE")
Version: $(cat "$root/VERSION")
Cflags: -I\${includedir}
Libs: -L\${libdir} -lfirthnapkin
END
}
