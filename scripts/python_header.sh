# How Python's extensions are compiled for another processor or C library by this machine's Python. It is sourced, with a Python in
# $python.
# shellcheck shell=bash

# write_header FOLDER PROCESSOR ..: Python's header that differs between processors. Where Debian's Python.h looks for that of a
# processor, this machine's is found, also with musl's headers. The stable ABI depends on nothing in it but sizes.
write_header() {
    local folder=$1 found processor
    shift
    found=$("$python" -c 'import os, sysconfig
own = sysconfig.get_config_var("MULTIARCH") or ""
print(os.path.join("/usr/include", own, os.path.basename(sysconfig.get_path("include")), "pyconfig.h"))')
    mkdir -p "$folder"
    for processor; do
        [ ! -e "$found" ] || install -D "$found" "$folder/$processor-linux-gnu/$(basename "${found%/*}")/pyconfig.h"
    done
}

# has_sizes COMPILER FOLDER: whether types have the sizes there that the header says.
has_sizes() {
    CPATH=$2 "$1" -c -x c -o "$2/sizes.o" -I "$("$python" -c 'import sysconfig; print(sysconfig.get_path("include"))')" - << 'END'
#include <pyconfig.h>
#include <stddef.h>
_Static_assert(sizeof(int) == SIZEOF_INT && sizeof(long) == SIZEOF_LONG && sizeof(long long) == SIZEOF_LONG_LONG
               && sizeof(void *) == SIZEOF_VOID_P && sizeof(size_t) == SIZEOF_SIZE_T && sizeof(wchar_t) == SIZEOF_WCHAR_T, "sizes");
END
}
