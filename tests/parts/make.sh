# shellcheck shell=sh disable=SC2015,SC2086,SC2154
# make.sh: the make file as a user meets it.

# Names that a careless recipe would take apart, or run.
odd_names() {
    odd="$WORK/a scene; touch hit; \$(touch hit) \`touch hit\` 'it' \"s.scene"
    cp examples/sector.scene "$odd" && cp examples/sector.scene "$WORK/plain.scene" || return 1
    $MAKE report SCENE="$odd" > "$WORK/odd.txt" && same crates/report/stdout "$WORK/odd.txt" || return 1
    $MAKE edit SCENE="$WORK/plain.scene" OUT="$odd" > /dev/null && same examples/sector.scene "$odd" || return 1
    [ ! -e hit ] || { echo "a name was run"; return 1; }
    # A refused scene is an answer; a missing one is an error.
    $MAKE report SCENE=examples/repeated.scene > /dev/null || return 1
    ! $MAKE report SCENE="$WORK/none.scene" > /dev/null 2>&1
}

# Arguments that are no numbers are errors.
numbers_asked() {
    for count in abc 1x -1 '1;touch hit'; do
        ! $MAKE fuzz COUNT="$count" > "$WORK/asked.txt" 2>&1 && grep -q 'is not a number' "$WORK/asked.txt" ||
            { echo "COUNT=$count was taken"; return 1; }
    done
    ! $MAKE fuzz SEED=abc COUNT=1 > /dev/null 2>&1 && $MAKE fuzz SEED=7 COUNT=10 > "$WORK/asked.txt" &&
        grep -q '^compare: 10 inputs, 0 failed$' "$WORK/asked.txt"
}

# How far a long run is, on a terminal only.
progress_told() {
    script='import pty, sys; sys.exit(pty.spawn(sys.argv[1:]) >> 8)'
    python3 -c "$script" $RUN $BUILD/compare 1 2000 < /dev/null > "$WORK/told.txt" &&
        grep -q '1000 of 2000 inputs' "$WORK/told.txt" || return 1
    $RUN $BUILD/compare 1 2000 > /dev/null 2> "$WORK/told.txt" && [ ! -s "$WORK/told.txt" ]
}

# Proving says which crate it is at while it goes on, and shows all where it fails. In the place of rt stands
# a script that is done with one crate and then waits until it is told to go on, or gives up.
proving_told() {
    stand_in=$PWD/$WORK/stand-in
    mkdir -p "$stand_in" && rm -f "$stand_in/go" || return 1
    cat > "$stand_in/rt" << 'RT'
#!/bin/sh
echo "crate region: modules loaded=0 checked=1"
echo "logic=proved functions=2 sum=0"
for tenth in $(seq 200); do
    [ ! -e "${0%/rt}/go" ] || exit 0
    sleep 0.1
done
echo "rt: nobody told me to go on"
exit 1
RT
    chmod +x "$stand_in/rt"
    PATH=$stand_in:$PATH tools/prove check report 2> "$WORK/proving.txt" &
    for tenth in $(seq 100); do
        grep -q '^prove: 1 of [0-9]*: region: 2 functions proved' "$WORK/proving.txt" && break
        sleep 0.1
    done
    [ "$tenth" -lt 100 ] && touch "$stand_in/go"
    wait $! || { cat "$WORK/proving.txt"; return 1; }
    printf '#!/bin/sh\necho "rt: something is wrong"\nexit 1\n' > "$stand_in/rt"
    ! PATH=$stand_in:$PATH tools/prove check report 2> "$WORK/proving.txt" &&
        grep -q 'something is wrong' "$WORK/proving.txt"
}

# Nothing is made anew without a change; a changed definition, proof or source makes all that rests on it.
remade() {
    made="target/staticlib/libchachaqom.a target/bin/report"
    [ "$ARCHIVE" = target/staticlib/libchachaqom.a ] || return 0
    $MAKE library target/bin/report && make -q library target/bin/report ||
        { echo "something is made without a change"; return 1; }
    for changed in crates/relation/specs/Lib.antt crates/report/src/main.rt crates/scene/proofs crates.txt; do
        make -n -W $changed $made > "$WORK/remade.txt" && grep -q 'staticlib chachaqom' "$WORK/remade.txt" &&
            grep -q 'check report' "$WORK/remade.txt" || { echo "$changed changes nothing"; return 1; }
    done
}

# Without the kit each target says so in a line. The folder has every command but rt.
without_kit() {
    bare=$PWD/$WORK/bare
    mkdir -p "$bare"
    for command in sh make sed find awk tee mktemp mkdir touch rm cat dirname readlink uname; do
        ln -sf "$(command -v $command)" "$bare/$command"
    done
    for target in library report install; do
        ! PATH=$bare make -s -W crates.txt $target > "$WORK/bare.txt" 2>&1 &&
            grep -q "the Rattle kit's command 'rt' is not on the PATH" "$WORK/bare.txt" &&
            [ "$(grep -vc '^make' "$WORK/bare.txt")" -eq 1 ] || { cat "$WORK/bare.txt"; return 1; }
    done
}

# Where apt-get cannot install what is missing, its own words are shown.
without_network() {
    alone=$PWD/$WORK/alone
    mkdir -p "$alone"
    for command in sh uname readlink mktemp cat rm; do
        ln -sf "$(command -v $command)" "$alone/$command"
    done
    printf '#!/bin/sh\necho "E: there is no network here"\nexit 100\n' > "$alone/apt-get"
    chmod +x "$alone/apt-get"
    ! PATH=$alone sh -c 'unset CC CXX; . tests/toolchain.sh' > "$WORK/alone.txt" 2>&1 &&
        grep -q 'E: there is no network here' "$WORK/alone.txt" && grep -q 'could not install.* gcc' "$WORK/alone.txt"
}

# The measurement is made, its programs agree with the library, and picture and tables come of what it writes; nothing is timed here.
benched() {
    $MAKE $BUILD/bench/bench && $RUN $BUILD/bench/bench "$WORK/bench.csv" 8 "$RUN" > "$WORK/bench.txt" ||
        { cat "$WORK/bench.txt"; return 1; }
    ! $RUN $BUILD/bench/bench "$WORK/none.csv" 65 2> /dev/null || { echo "65 regions were taken"; return 1; }
    python3 bench/picture.py "$WORK/bench.csv" > "$WORK/bench.svg" &&
        python3 -c 'import sys, xml.dom.minidom as dom; dom.parse(sys.argv[1])' "$WORK/bench.svg" || return 1
    for kind in sparse medium dense chain 'nothing stated' 'refused 23' 'refused 22' 'refused 21'; do
        grep -q ">$kind" "$WORK/bench.svg" || { echo "the picture has no '$kind'"; return 1; }
    done
    python3 bench/tables.py "$WORK/bench.csv" > "$WORK/bench.md" && grep -q '^| 8 | closed | 23 | 2.0 |' "$WORK/bench.md"
}

# The document shows what the stored run says; one figure more or less is noticed.
shown() {
    python3 bench/tables.py docs/performance.csv docs/PERFORMANCE.md || return 1
    python3 bench/picture.py docs/performance.csv > "$WORK/performance.svg" && same docs/performance.svg "$WORK/performance.svg" || return 1
    sed '$s/,[0-9.]*$/,1.0/' docs/performance.csv > "$WORK/performance.csv"
    ! python3 bench/tables.py "$WORK/performance.csv" docs/PERFORMANCE.md 2> /dev/null || { echo "a changed time was not noticed"; return 1; }
    # Times of an emulator do not get into the document.
    sed '/^# run natively$/d' docs/performance.csv > "$WORK/performance.csv" && cp docs/PERFORMANCE.md "$WORK/performance.md"
    ! python3 bench/tables.py "$WORK/performance.csv" "$WORK/performance.md" write 2> /dev/null
}

making() {
    odd_names && numbers_asked && progress_told && proving_told && remade && without_kit && without_network && benched && shown &&
        $MAKE help | grep -q 'make uninstall' &&
        echo "odd names, wrong numbers, progress, changes, a machine without the kit, the measurement's programs"
}
