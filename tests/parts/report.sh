# shellcheck shell=sh disable=SC2086,SC2154
# report.sh: the report program as a user meets it: exit statuses, and failures that it must tell.

# ends STATUS WORDS COMMAND..: the command's exit status, and its standard error: it has the words, or
# is empty where there are none.
ends() {
    ends_status=$1 words=$2
    shift 2
    "$@" > "$WORK/ends.out" 2> "$WORK/ends.log"
    found=$?
    [ $found -eq "$ends_status" ] || { echo "$*: exit status $found, not $ends_status"; return 1; }
    if [ -z "$words" ]; then
        [ ! -s "$WORK/ends.log" ] && return
    else
        grep -q "$words" "$WORK/ends.log" && return
    fi
    cat "$WORK/ends.log"
    echo "$*: expected on standard error: $words"
    return 1
}

# Each of these is one use of the program.
report_on() { tools/report < "$1"; }
report_closed_input() { tools/report <&-; }
report_closed_output() { tools/report < examples/sector.scene >&-; }
report_full_output() { tools/report < examples/large.scene > /dev/full; }
report_limited_output() { (ulimit -f 1 && tools/report < examples/large.scene > "$WORK/limited"); }
program_on() { $RUN target/bin/report < "$1"; }
program_full_output() { $RUN target/bin/report < examples/large.scene > /dev/full; }

# The bytes on standard output are the program's, and 0 or 1 is the exit status.
report_statuses() {
    for scene in examples/*.scene; do
        program_on "$scene" > "$WORK/printed.txt" || return 1
        case $(cat "$WORK/printed.txt") in accepted*) status=0 ;; *) status=1 ;; esac
        ends $status "" report_on "$scene" && same "$WORK/printed.txt" "$WORK/ends.out" || return 1
        reported=$((reported + 1))
    done
}

# Nothing is printed where there is no report, and standard error says why.
report_failures() {
    ends 2 "Is a directory" report_on examples && [ ! -s "$WORK/ends.out" ] &&
        ends 2 "standard input" report_closed_input && [ ! -s "$WORK/ends.out" ] &&
        ends 2 "standard output" report_closed_output &&
        ends 2 "standard output" report_full_output &&
        ends 2 "standard output" report_limited_output &&
        ends 2 "usage: report < SCENE" tools/report examples/sector.scene &&
        [ ! -s "$WORK/ends.out" ] || return 1
    # Run by itself the program ends with 0, but it says the same.
    ends 0 "standard input: Is a directory" program_on examples && [ ! -s "$WORK/ends.out" ] &&
        ends 0 "standard output: No space" program_full_output
}

# In pieces, as from a pipe, the scene is the same.
report_in_pieces() {
    for start in 1 12 23 34; do
        tail -c +$start examples/sector.scene | head -c 11
        sleep 0.1
    done | tools/report > "$WORK/pieces.txt" && report_on examples/sector.scene > "$WORK/whole.txt" &&
        same "$WORK/whole.txt" "$WORK/pieces.txt"
}

# What is written down for a scene, byte by byte.
report_written_down() {
    for text in tests/reported/*.txt; do
        name=${text##*/}
        tools/scene make "tests/scenes/$name" -o "$WORK/written.scene" &&
            report_on "$WORK/written.scene" > "$WORK/written.txt" && same "$text" "$WORK/written.txt" || return 1
        written=$((written + 1))
    done
}

report_as_a_program() {
    reported=0 written=0
    report_statuses && report_failures && report_in_pieces && report_written_down &&
        echo "$reported examples with their exit statuses; 6 failures told; $written reports as written down"
}
