# The functions by which ./test and the scripts of tests/ count what passed, what failed, and what was skipped. It is sourced,
# with a folder for temporary files in $folder. A script that counts ends with the line 'N passed, M failed', or 'N passed, M failed, K skipped'.
# shellcheck shell=bash
passed=0
failed=0
skipped=0

passes() {
    passed=$((passed + 1))
}

# fails WHAT
fails() {
    echo "FAILED $1"
    failed=$((failed + 1))
}

# skip WHY: a part that can't be tested on this machine.
skip() {
    echo "${0##*/}: skipped: $1"
    skipped=$((skipped + 1))
}

# section NAME: begins a section of the script. When it ends a line says how many cases it tried, without those of sections in it.
section_name='' section_start=0
section() {
    end_section
    section_name=$1 section_start=$((passed + failed))
    echo "== $1"
}
end_section() {
    [ -z "$section_name" ] || echo "cases of $section_name: $((passed + failed - section_start))"
    section_name=''
}

# finish: ends with the numbers, and with the status that says whether something failed.
finish() {
    end_section
    echo "$passed passed, $failed failed, $skipped skipped"
    [ "$failed" = 0 ]
    exit
}

# add_numbers FILE STATUS NAME: adds the numbers of the last line that a command wrote to this file. It fails if there is no
# such line, if no case was tried and none was skipped, if the command ended with another status than 0 though it
# counted no failure, and if a sanitizer reported something.
add_numbers() {
    local last
    last=$(tail -n 1 "$1")
    if [[ ! $last =~ ^([0-9]+)\ passed,\ ([0-9]+)\ failed(,\ ([0-9]+)\ skipped)?$ ]]; then
        fails "$3 ended without its numbers"
        return
    fi
    local good=${BASH_REMATCH[1]} bad=${BASH_REMATCH[2]} left=${BASH_REMATCH[4]:-0}
    passed=$((passed + good))
    failed=$((failed + bad))
    skipped=$((skipped + left))
    [ $((good + bad + left)) != 0 ] || fails "$3 tested nothing"
    [ "$2" = 0 ] || [ "$bad" != 0 ] || fails "$3 ended with status $2"
    ! grep -qE ': runtime error: |==ERROR: [A-Za-z]+Sanitizer: ' "$1" || fails "$3: a sanitizer reported something"
}

# shown_skips FILE: the lines of it that say what was skipped, and how many cases a section tried.
shown_skips() {
    grep -E '^([a-z_.]+: )?skipped: |^ *--- SKIP|^ +[a-z_]+_test\.go:[0-9]+: |^ok .* # SKIP|^cases of ' "$1" || true
}

# counted COMMAND ..: runs it, adds the numbers of its last line, and sets $status to its exit status. What it wrote is shown
# if something failed, and else what it skipped, and how many cases its sections tried.
counted() {
    local failed_before=$failed shown=cat cases
    "$@" > "$folder/output" 2>&1
    status=$?
    add_numbers "$folder/output" "$status" "$*"
    [ "$failed" != "$failed_before" ] || shown=shown_skips
    $shown "$folder/output" | awk -v within="${section_name:+$section_name: }" '/^cases of / { $0 = "cases of " within substr($0, 10) } 1'
    for cases in $(sed -n 's/^cases of .*: //p' "$folder/output"); do section_start=$((section_start + cases)); done
}

# tested NAME PASSED FAILED COMMAND ..: runs it, and counts the lines of each pattern, without those of tests that were skipped,
# which it shows.
# If the command fails, that is reported; so is a run without a line of the first pattern, if there is a pattern.
SKIPPED='^ *--- SKIP|^test .*\.\.\. ignored|^ok .* # (SKIP|TODO)'
tested() {
    local name=$1 good=$2 bad=$3 status good_count bad_count
    shift 3
    "$@" > "$folder/output" 2>&1
    status=$?
    good_count=$(grep -vE "$SKIPPED" "$folder/output" | grep -cE "$good")
    bad_count=$(grep -cE "$bad" "$folder/output")
    [ -n "$good" ] || good_count=$((status == 0))
    passed=$((passed + good_count))
    skipped=$((skipped + $(grep -cE "$SKIPPED" "$folder/output")))
    shown_skips "$folder/output"
    if [ "$status" != 0 ] || [ "$bad_count" != 0 ] || [ "$good_count" = 0 ]; then
        cat "$folder/output"
        fails "$name, status $status, $good_count of its parts passed, $bad_count failed"
    fi
}
