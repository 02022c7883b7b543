# The functions that ./gqlcheck, ./gqlcanon, ./prove, ./c-library, ./test and scripts/release share: which crates a crate depends
# on, which sources a built file was made of, how crates are proved in parallel, and how a program is run. It is sourced, with
# the repository's folder in $root.
# shellcheck shell=bash

# crates_below NAME ..: these crates and the crates of this repository that they depend on, the lowest first, each once.
crates_below() {
    awk -v names="$*" '
        function visit(name,    words, count, i) {
            if (!(name in needs) || name in seen) return
            seen[name]
            count = split(needs[name], words, " ")
            for (i = 1; i <= count; i++) visit(words[i])
            print name
        }
        { sub(/#.*/, "") }
        match($0, /:/) { split($0, words, " |:"); needs[words[1]] = substr($0, RSTART + 1) }
        END { count = split(names, wanted, " "); for (i = 1; i <= count; i++) visit(wanted[i]) }
    ' "$root/crates.txt"
}

# needed_by NAME: the crates of this repository that its line in crates.txt names.
needed_by() {
    local below
    for below in $(sed -n "s/^$1\( staticlib\)\{0,1\}://p" "$root/crates.txt"); do
        if [ -d "$root/crates/$below" ]; then echo "$below"; fi
    done
}

# product_of NAME: the file that shows what a proof of this crate built: the program, the static library, or the file of a
# library that holds the sum of its other files.
product_of() {
    local out=$root/crates/$1/out
    if [ -e "$root/crates/$1/src/main.rt" ]; then
        echo "$out/$1"
    elif grep -q "^$1 staticlib:" "$root/crates.txt"; then
        echo "$out/lib$1.a"
    else
        echo "$out/rlib/$1.rlib/format"
    fi
}

# list_beside FILE: where the list of the sources is kept that this file was built of. A library's is in the folder that the
# kit moves with the library.
list_beside() {
    case $1 in
        */out/rlib/*) echo "${1%%/out/rlib/*}/out/rlib/sources" ;;
        *) echo "$1.sources" ;;
    esac
}

# sources_of NAME ..: the names of the sources of these crates, and of crates.txt, each ended by a zero.
sources_of() {
    find crates.txt "${@/#/crates/}" \( -name out -o -name must-fail \) -prune -o \
        \( -name '*.rt' -o -name '*.antt' -o -name crates.txt \) -print0 | LC_ALL=C sort -z
}

# sums_of NAME ..: the sum and the name of each of these sources. False if one can't be read.
sums_of() {
    (cd "$root" && sources_of "$@" | xargs -0 sha256sum 2>&1)
}

# archive_for [PROCESSOR]: the proved archive of the library for C, which ./c-library links, for another processor than x86-64. For
# wasm32 it is LLVM's module of that archive, which ./c-library translates.
archive_for() {
    local file=libfirthnapkin_calls.a
    [ "${1-}" != wasm32 ] || file=module.bc
    echo "$root/crates/firthnapkin_calls/out/${1:+$1/}$file"
}

# is_current NAME [PRODUCT]: whether what a proof of this crate built is there, as it was built, and of the sources that are there
# now. Another product than that of product_of may be named.
is_current() {
    local product=${2-$(product_of "$1")} list
    list=$(list_beside "$product")
    [ -e "$product" ] && [ -e "$list" ] && { sums_of $(crates_below "$1") && sha256sum < "$product"; } | cmp -s - "$list"
}

# note_sources FOLDER NAME: notes the sources that this crate is about to be built of, with their sums, and when each was changed.
note_sources() {
    sums_of $(crates_below "$2") > "$1/$2.sums"
    times_of "$2" > "$1/$2.times"
}

times_of() {
    (cd "$root" && sources_of $(crates_below "$1") | xargs -0 stat -c '%n %.9Z' 2>&1)
}

# keep_list FOLDER NAME [PRODUCT]: keeps beside this crate's product the list of the sources that were noted before it was built.
# If one was changed since, the product may be of either text, so it gets no list.
keep_list() {
    local product=${3-$(product_of "$2")} list
    list=$(list_beside "$product")
    rm -f "$list"
    if [ -e "$product" ] && times_of "$2" | cmp -s - "$1/$2.times"; then
        { cat "$1/$2.sums" && sha256sum < "$product"; } > "$list"
    fi
}

# sums_of_link [PROCESSOR]: the sums of what ./c-library links, of what says how, and of what it made, for x86-64 if none is named.
# False if one is missing.
sums_of_link() {
    local inside=out/${1:+$1/} proved sources=(c-library) products
    proved=$(archive_for "$@")
    products=("$inside"libfirthnapkin.{a,so.0,so})
    case ${1-} in
        '') ;;
        wasm32)
            sources+=(include/firthnapkin.h bindings/{check,kept,sizes,whole}.h)
            sources+=(scripts/wasm/{build,retarget.py,{calls,memory,words}.c,memory.h,include/{one_stack,stddef,stdint,stdio,stdlib,string}.h})
            products=("$inside"firthnapkin.wasm)
            ;;
        *) sources+=(scripts/heap.c) ;;
    esac
    (cd "$root" && sha256sum "${proved#"$root/"}" "${sources[@]}" "${products[@]}" 2> /dev/null)
}

# is_linked [PROCESSOR]: whether the library for C is there as ./c-library linked it.
is_linked() {
    local stamp=$root/out/${1:+$1/}libfirthnapkin.sources
    [ -e "$stamp" ] && sums_of_link "$@" | cmp -s - "$stamp"
}

# has_library [PROCESSOR]: whether it is, of the sources that are there.
has_library() {
    is_current firthnapkin_calls "$(archive_for "$@")" && is_linked "$@"
}

# Sets $python to a Python that can build the package, and to nothing if there is none.
find_python() {
    for python in /usr/bin/python3 python3; do
        "$python" -c 'import setuptools, pip, sys, sysconfig, os
from importlib.util import find_spec
makes_wheels = find_spec("wheel") or tuple(map(int, setuptools.__version__.split(".")[:2])) >= (70, 1)
has_header = os.path.exists(sysconfig.get_path("include") + "/Python.h")
sys.exit(not (sys.version_info >= (3, 9) and makes_wheels and has_header))' 2> /dev/null && return
    done
    python=
}

# can_write WHO FOLDER ..: ends with a line on standard error, and status 125, if no file can be written in one of these
# folders.
can_write() {
    local who=$1 folder probe
    shift
    for folder in "$@"; do
        if ! probe=$(mktemp "$folder/writing.XXXXXX" 2> /dev/null) || ! echo 2> /dev/null > "$probe" || ! rm "$probe"; then
            ends_with "$who: no file can be written in $folder" 125
        fi
    done
}

# has_kit WHO: ends with a line on standard error, and status 127, if the kit's command is missing.
has_kit() {
    if ! command -v rt > /dev/null; then
        echo "$1: the command rt of the Rattle kit is not on this machine's PATH" >&2
        exit 127
    fi
}

# waits_for NAME: crates that this one waits for, beside those that it depends on. A script may say other ones.
waits_for() { :; }

# prove_crates WHO LOG NAME ..: proves these crates, each as soon as those that it waits for are proved, and reports each when
# its proof begins. The kit skips a crate that was proved before, of the same sources. False if one fails.
prove_crates() {
    local who=$1 log=$2 begin=$SECONDS number=0 name marks
    shift 2
    marks=$(mktemp -d)
    for name in "$@"; do
        number=$((number + 1))
        prove_after_others "$who" "$log" "$name" "$number of $#" "$begin" "$marks" "$@" &
    done
    wait
    local proved
    proved=$(find "$marks" -name '*.proved' | wc -l)
    rm -rf "$marks"
    [ "$proved" = $# ]
}

# Proves one of them. It does nothing if one that it waits for has failed.
prove_after_others() {
    local who=$1 log=$2 name=$3 number=$4 begin=$5 marks=$6 below
    shift 6
    for below in $(needed_by "$name") $(waits_for "$name"); do
        case " $* " in *" $below "*) ;; *) continue ;; esac
        until [ -e "$marks/$below.proved" ]; do
            [ ! -e "$marks/failed" ] || return
            sleep 0.2
        done
    done
    [ ! -e "$marks/failed" ] || return
    echo "$who: proving $name, $number, after $(((SECONDS - begin) / 60)) minutes" >&2
    if prove_crate "$name" "$marks" >> "$log.$name" 2>&1; then
        touch "$marks/$name.proved"
    else
        touch "$marks/failed"
        echo "$who: $name was not proved; $log.$name says why" >&2
    fi
}

# flags_of NAME: the flags that the kit gets beside the crate when it builds this library. A script may say other ones.
flags_of() { :; }

# prove_crate NAME FOLDER: a program is proved by running it, a library by building it. The folder is for notes.
prove_crate() {
    note_sources "$2" "$1"
    cd "$root/crates/$1" || return 1
    if [ -e src/main.rt ]; then echo '{ a }' | rt run; else rt lib $(flags_of "$1"); fi && keep_list "$2" "$1"
}

# The longest text of a checked run, in bytes. Much shorter ones already get no result in time.
longest=$((1 << 24))

# run_program NAME WORD ..: runs the program of this crate on standard input, if it was built of the sources that are there.
# Otherwise it makes the kit's checked run, which proves nothing and checks every access as it runs. A line on standard error says so.
# The statuses are the program's. The status 125 says that the checked run gave no result, and 127 that the kit is missing.
run_program() {
    local name=$1 program=$root/crates/$1/out/$1
    shift
    if is_current "$name"; then exec "$program" "$@"; fi
    has_kit "$name"
    echo "$name: this run is checked, not proved; ./prove proves and builds the program" >&2
    folder=$(mktemp -d 2> /dev/null) || ends_with "$name: no folder for temporary files can be made" 125
    trap 'rm -rf "$folder"' EXIT
    head -c $((longest + 1)) > "$folder/text" 2> /dev/null || ends_with "$name: input or output failed" 3
    if [ "$(stat -c %s "$folder/text")" -gt $longest ]; then
        ends_with "$name: a checked run takes no text of more than $longest bytes" 125
    fi
    run_checked "$name" "$@"
}

# run_checked NAME WORD ..: the checked run on the file `text` of $folder. Its last line says whether a status is the program's. Only
# then its output is a report.
run_checked() {
    local name=$1 status last
    shift
    (cd "$root/crates/$name" && rt try -- "$@") < "$folder/text" > "$folder/report" 2> "$folder/messages"
    status=$?
    last=$(tail -n 1 "$folder/messages")
    case $last in
        "run=ended status=$status "*)
            write_report "$name" $status 2> /dev/null || ends_with "$name: input or output failed" 3
            grep "^$name: " "$folder/messages" >&2
            exit $status
            ;;
    esac
    ends_with "$name: the checked run gave no answer: ${last:-it wrote nothing}" 125
}

# write_report NAME STATUS: writes the output of a checked run. The kit adds a line end to an output that ends without one,
# and a canonical text never ends with one.
write_report() {
    if [ "$1 $2" = 'gqlcanon 0' ] && [ -z "$(tail -c 1 "$folder/report")" ]; then
        head -c -1 "$folder/report"
    else
        cat "$folder/report"
    fi
}

# ends_with LINE STATUS: ends with this status, and this line on standard error.
ends_with() {
    echo "$1" >&2
    exit "$2"
}
