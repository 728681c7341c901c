# shellcheck shell=sh disable=SC2154
# scene.sh: the tool that makes scenes from text and shows them as text.

# A scene shown as text and made again is the same scene; damaged ones too.
round_trip() {
    tools/scene show "$1" > "$WORK/shown.txt" 2> /dev/null
    [ $? -eq "$2" ] || { echo "$1: shown with another exit status than $2"; return 1; }
    tools/scene make "$WORK/shown.txt" > "$WORK/again.scene" && same "$1" "$WORK/again.scene"
}

scenes() {
    for scene in examples/*.scene; do
        tools/scene make "${scene%.scene}.txt" > "$WORK/made.scene" &&
            same "$scene" "$WORK/made.scene" && round_trip "$scene" 0 || return 1
    done
    tripped=0
    for length in 0 1 4 5 33 39 40 41 119 120; do
        head -c $length examples/nested.scene > "$WORK/damaged.scene"
        round_trip "$WORK/damaged.scene" 1 || return 1
        tripped=$((tripped + 1))
    done
    printf '\004\000' | cat examples/sector.scene - > "$WORK/damaged.scene"
    round_trip "$WORK/damaged.scene" 1 || return 1
    tripped=$((tripped + 1))
}

# Statements are numbered from 1, regions between them not counted.
numbered() {
    cat > "$WORK/numbered.txt" << 'TEXT'
region 30
30 equal,overlap 30  # statement 1
region 10
10 disjoint,meet,overlap 30  # statement 2
30 any 10  # statement 3
region 20
20 inside,coveredBy 10  # statement 4
10 meet,equal,overlap 30  # statement 5
20 any 20  # statement 6
10 contains,covers,overlap 20  # statement 7
end
TEXT
    tools/scene make tests/scenes/mixed.txt -o "$WORK/numbered.scene" &&
        tools/scene show "$WORK/numbered.scene" -o "$WORK/shown.txt" && same "$WORK/numbered.txt" "$WORK/shown.txt"
}

# ---- texts that are at fault, files that cannot be used ----

# Each is a text at fault and what must be said of it: its line, and no word of the tool's own language.
faulty_texts() {
    while IFS='|' read -r text words; do
        printf 'region 7\n%b\n' "$text" > "$WORK/wrong.txt"
        ends 1 "line 2: .*$words" tools/scene make "$WORK/wrong.txt" &&
            [ ! -s "$WORK/ends.out" ] || return 1
        if grep -qi 'traceback\|errno\|codec\|fromhex\|int()\|exception' "$WORK/ends.log"; then
            cat "$WORK/ends.log"
            return 1
        fi
        faulty=$((faulty + 1))
    done <<'TEXTS'
7 besides 7|besides is not a relation
7 inside,,meet 7|nothing is not a relation
region 7 8|one identifier, and here are 2
region|one identifier, and here are 0
region x|x is not an identifier
region -1|-1 is not an identifier
region 4294967296|too large
region 99999999999999999999|too large
7 inside|no record
7 is inside 7|no record
end of it|behind end
bytes 0|hexadecimal
bytes zz|hexadecimal
bytes 0x11|hexadecimal
\0377\0376|not text
TEXTS
}

# A byte order mark, and lines that end as on Windows, are met with the same scene.
other_texts() {
    { printf '\357\273\277'; sed 's/$/\r/' examples/sector.txt; } > "$WORK/windows.txt"
    tools/scene make "$WORK/windows.txt" > "$WORK/windows.scene" &&
        same examples/sector.scene "$WORK/windows.scene" || return 1
    printf 'region 4294967295\nregion 00007 # the seventh\nbytes ff 00FF03' > "$WORK/edge.txt"
    printf '\001\377\377\377\377\001\000\000\000\007\377\000\377\003' > "$WORK/edge.scene"
    tools/scene make "$WORK/edge.txt" > "$WORK/made.scene" && same "$WORK/edge.scene" "$WORK/made.scene"
}

scene_to() { tools/scene make examples/sector.txt > "$1"; }
scene_closed() { tools/scene make examples/sector.txt >&-; }

# Wrong uses, and files that cannot be read or written.
unusable_files() {
    ends 2 "usage" tools/scene && ends 2 "usage" tools/scene make && ends 2 "usage" tools/scene make -o &&
        ends 2 "usage" tools/scene make examples/sector.txt more && ends 2 "usage" tools/scene draw x &&
        ends 2 "none.txt: No such file" tools/scene make "$WORK/none.txt" &&
        ends 2 "Is a directory" tools/scene make examples &&
        ends 2 "standard output: No space" scene_to /dev/full &&
        ends 2 "standard output" scene_closed &&
        ends 2 "No such file" tools/scene make examples/sector.txt -o "$WORK/none/x.scene" &&
        ends 0 "" tools/scene --help && grep -q coveredBy "$WORK/ends.out"
}

# -o replaces a file whole, keeps its mode, and leaves it where the text is at fault.
output_files() {
    cp examples/nested.scene "$WORK/out.scene" && chmod 640 "$WORK/out.scene" &&
        printf 'region\n' > "$WORK/wrong.txt" || return 1
    ends 1 "line 1" tools/scene make "$WORK/wrong.txt" -o "$WORK/out.scene" &&
        same examples/nested.scene "$WORK/out.scene" &&
        ends 0 "" tools/scene make -o "$WORK/out.scene" examples/sector.txt &&
        same examples/sector.scene "$WORK/out.scene" &&
        [ "$(stat -c %a "$WORK/out.scene")" = 640 ] || return 1
    ends 0 "" tools/scene show "$WORK/out.scene" -o "$WORK/out.txt" &&
        tools/scene make "$WORK/out.txt" | cmp - examples/sector.scene
}

# 300,000 lines within a time that a quadratic tool would exceed many times.
long_text() {
    { echo "region 1"; seq -f '1 inside 1  # statement %.0f' 300000; echo end; } > "$WORK/long.txt"
    timeout 30 tools/scene make "$WORK/long.txt" -o "$WORK/long.scene" &&
        timeout 30 tools/scene show "$WORK/long.scene" -o "$WORK/longer.txt" &&
        same "$WORK/long.txt" "$WORK/longer.txt"
}

scene_tool() {
    faulty=0
    scenes && numbered && faulty_texts && other_texts && unusable_files && output_files && long_text &&
        echo "examples made and shown alike, $tripped damaged scenes too; $faulty faulty texts told"
}
