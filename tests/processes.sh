# What the scripts that test processes share: the comparison of a run's results, and texts of many parts. It is sourced, with a
# folder for temporary files in $folder.
# shellcheck shell=bash
. "$root/tests/counting.sh"

DEVICE='gqlcheck: input or output failed'
MEMORY='gqlcheck: out of memory'

# expect NAME STATUS OUTPUT ERRORS: compares the results of the last run, in $status and in the files `out` and `err`.
expect() {
    local out err
    out=$(cat "$folder/out")
    err=$(cat "$folder/err")
    if [ "$status" = "$2" ] && [ "$out" = "$3" ] && [ "$err" = "$4" ]; then
        passes
    else
        fails "$1: status $status, not $2; wrote '$(head -c 200 <<< "$out")'; on standard error '$err'"
    fi
}

# Repeats a text so many times.
often() {
    yes "$1" | head -n "$2" | tr -d '\n'
}
