#!/bin/sh
# run.sh: everything that is tested from C, one line for each part; ends at the first that fails.
#
#     tests/run.sh [ARCHIVE]     ARCHIVE: another archive than that of `make library`
# RUN, MAKE and the compiler's flags are lists of words.
# shellcheck disable=SC2086,SC1090
set -u
cd "$(dirname "$0")/.." || exit 1
TOOLCHAIN_FOR=tests
. tests/toolchain.sh
for sourced in same report editor scene link install make; do
    . "tests/parts/$sourced.sh"
done

BUILD=target/c
WORK=$BUILD/run
ARCHIVE=${1:-target/staticlib/libchachaqom.a}
MAKE="make -s ARCHIVE=$ARCHIVE"
rm -rf $BUILD
mkdir -p "$WORK" || exit 1

# part NAME COMMAND..: runs a part; its last line is its summary.
part() {
    part_name=$1
    shift
    if "$@" > "$WORK/log" 2>&1; then
        echo "$part_name: $(tail -n 1 "$WORK/log")"
    else
        cat "$WORK/log"
        echo "$part_name: FAILED"
        exit 1
    fi
}

# The programs are made anew, for the archive of this run; the parts below run them.
build() {
    $MAKE target/bin/report $BUILD/host $BUILD/host-in-c++ $BUILD/compare $BUILD/expected \
        $BUILD/stack $BUILD/text $BUILD/text-in-c++ $BUILD/editor &&
        { [ -n "$UNRUN" ] || $MAKE sanitized; } &&
        echo "programs made"
}

part "build" build
part "host in C" $RUN $BUILD/host
part "host in C++" $RUN $BUILD/host-in-c++
part "compare" $RUN $BUILD/compare
part "faults" $RUN $BUILD/compare faults
# Both work on programs of the machine's own processor alone.
if [ -z "$UNRUN" ]; then
    part "host under valgrind" valgrind -q --error-exitcode=9 $BUILD/host
    part "compare under sanitizers" $BUILD/compare-sanitized 7 4000
else
    echo "host under valgrind: LEFT OUT: $UNRUN"
    echo "compare under sanitizers: LEFT OUT: $UNRUN"
fi
part "stack" $RUN $BUILD/stack
part "signatures" python3 tests/signatures.py
part "words in C" $RUN $BUILD/text
part "words in C++" $RUN $BUILD/text-in-c++
part "report" python3 tests/reports.py $RUN target/bin/report -- $RUN $BUILD/expected
part "report as a program" report_as_a_program
part "linking" linking
part "installed copy" installed
part "make" making
part "editor" editor
part "saving" saving
part "nothing lost" nothing_lost
part "scene tool" scene_tool
