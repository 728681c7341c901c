# shellcheck shell=sh disable=SC2015,SC2086,SC2154
# editor.sh: the example host: what it shows, what it saves, and that nothing is lost when it cannot.

# The example host on one scene: what it prints, and its exit status as a last line.
edit_scene() {
    $RUN $BUILD/editor "$1" > "$WORK/edited.txt"
    echo "exit status $?" >> "$WORK/edited.txt"
    same "tests/expected/$2.txt" "$WORK/edited.txt"
}

editor() {
    edited=0
    for text in examples/*.txt tests/scenes/*.txt; do
        name=$(basename "$text" .txt)
        tools/scene make "$text" > "$WORK/$name.scene" && edit_scene "$WORK/$name.scene" "$name" ||
            return 1
        edited=$((edited + 1))
    done
    head -c 32769 /dev/zero > "$WORK/too_long.scene"
    edit_scene "$WORK/too_long.scene" too_long || return 1
    $RUN $BUILD/editor > /dev/null 2>&1
    [ $? -eq 2 ] || { echo "no usage"; return 1; }
    $RUN $BUILD/editor "$WORK/no_such.scene" > /dev/null 2>&1
    [ $? -eq 2 ] || { echo "a missing file was read"; return 1; }
    echo "$((edited + 1)) scenes shown as expected"
}

# Saves the scene of one name, with further arguments: what is printed before the last line, that
# line, the exit status, and the scene that is there afterwards.
save_scene() {
    name=$1 expected=$2 last=$3 status=$4 scene=$5
    shift 5
    $RUN $BUILD/editor "$WORK/$name.scene" "$WORK/saved.scene" "$@" > "$WORK/edited.txt"
    [ $? -eq "$status" ] || { echo "$name: saved with another exit status than $status"; return 1; }
    sed '$d' "tests/expected/$expected.txt" > "$WORK/expected.txt"
    [ -z "$last" ] || echo "$last" >> "$WORK/expected.txt"
    same "$WORK/expected.txt" "$WORK/edited.txt" && same "$scene" "$WORK/saved.scene"
}

# The normal form of the scene of one name is shown alike, but for the numbers of its own statements, and saved as it is.
save_normal() {
    sed -i 's/, last narrowed by .*//' "$WORK/expected.txt"
    $RUN $BUILD/editor "$WORK/normal.scene" "$WORK/saved.scene" > "$WORK/edited.txt" ||
        { echo "$1: its normal form is not saved"; return 1; }
    sed -i 's/, last narrowed by .*//' "$WORK/edited.txt"
    same "$WORK/expected.txt" "$WORK/edited.txt" && same "$WORK/normal.scene" "$WORK/saved.scene"
}

# Every accepted scene is saved in normal form, twice alike; a refused one leaves the file.
save_every_scene() {
    echo "something else" > "$WORK/other.scene"
    for text in examples/*.txt tests/scenes/*.txt; do
        name=$(basename "$text" .txt)
        if grep -q '^exit status 0$' "tests/expected/$name.txt"; then
            [ -e "tests/saved/$name.txt" ] && text=tests/saved/$name.txt
            tools/scene make "$text" > "$WORK/normal.scene" || return 1
            last="Saved: $(($(wc -c < "$WORK/normal.scene"))) bytes."
            save_scene "$name" "$name" "$last" 0 "$WORK/normal.scene" && save_normal "$name" || return 1
            saved=$((saved + 1))
        else
            cp "$WORK/other.scene" "$WORK/saved.scene"
            save_scene "$name" "$name" "" 1 "$WORK/other.scene" || return 1
            kept=$((kept + 1))
        fi
    done
}

# A region renamed: to a free identifier; to one that is taken or is none; or not at all.
save_renamed() {
    tools/scene make tests/saved/renamed.txt > "$WORK/renamed.scene" &&
        save_scene sector sector "Saved: 36 bytes." 0 "$WORK/renamed.scene" 9 12 &&
        save_scene sector sector "Not saved. Two regions have the identifier 7." 1 \
            "$WORK/renamed.scene" 9 7 &&
        save_scene sector sector "Not saved. A region has no identifier." 1 \
            "$WORK/renamed.scene" 9 0 &&
        save_scene sector sector "" 2 "$WORK/renamed.scene" 8 12 &&
        save_scene sector sector "" 2 "$WORK/renamed.scene" 9 4294967296
}

saving() {
    saved=0 kept=0
    save_every_scene && save_renamed || return 1
    $RUN $BUILD/editor examples/sector.scene "$WORK/saved.scene" 9 > /dev/null 2>&1
    [ $? -eq 2 ] || { echo "renamed to nothing"; return 1; }
    echo "$saved scenes saved as expected, $kept files kept"
}

# ---- saving that fails ----

# Prepares an old scene at OUT that is to survive: the smallest example, at the given path.
old_scene() {
    cp examples/sector.scene "$1" && chmod 640 "$1"
}

# kept STATUS OUT WHAT: the status was 2, the old scene is there byte for byte, and nothing beside it.
kept() {
    [ "$1" -eq 2 ] || { echo "$3: exit status $1 and not 2"; return 1; }
    same examples/sector.scene "$2" || return 1
    for beside in "$2".*; do
        [ ! -e "$beside" ] || { echo "$3: $beside was left"; return 1; }
    done
}

# The largest example is longer than a block, so that the limit is met in the middle of it.
save_past_a_limit() {
    old_scene "$WORK/limited.scene" || return 1
    (
        ulimit -f "$1"
        $RUN $BUILD/editor examples/large.scene "$WORK/limited.scene" 2> /dev/null
        echo "status $?"
    ) | cat > "$WORK/limited.txt"
    kept "$(sed -n 's/^status //p' "$WORK/limited.txt")" "$WORK/limited.scene" "file size limit $1"
}

# In a file system of its own with no room left; run by full_disk.
save_on_a_full_disk() {
    disk=$WORK/disk
    mkdir -p "$disk" && mount -t tmpfs -o size=16k none "$disk" && old_scene "$disk/old.scene" ||
        return 77
    cat /dev/zero > "$disk/filler" 2> /dev/null
    $RUN $BUILD/editor examples/large.scene "$disk/old.scene" > /dev/null 2> "$WORK/disk.log"
    kept $? "$disk/old.scene" "full disk" && grep -q 'No space' "$WORK/disk.log"
}

# A mount that others do not see, where the system lets us have one.
full_disk() {
    WORK=$WORK BUILD=$BUILD RUN=$RUN unshare -rm sh -c '
        . tests/parts/same.sh; . tests/parts/editor.sh; save_on_a_full_disk' > "$WORK/full.log" 2>&1
    status=$?
    [ $status -ne 0 ] && grep -q 'unshare\|mount' "$WORK/full.log" && status=77
    case $status in
    0) full="a full disk too" ;;
    77) full="a full disk not tried, since no file system can be mounted here" ;;
    *)
        cat "$WORK/full.log"
        return 1
        ;;
    esac
}

# A place where no file can be made, and a name that is no file.
save_elsewhere() {
    for name in "$WORK/none/saved.scene" "$WORK" /dev/full; do
        $RUN $BUILD/editor examples/sector.scene "$name" > /dev/null 2>&1
        [ $? -eq 2 ] || { echo "saved to $name"; return 1; }
    done
}

# OUT may be SCENE, by its own name or by a link, which stays one; the mode stays too.
save_in_place() {
    cp "$WORK/mixed.scene" "$WORK/place.scene" && chmod 640 "$WORK/place.scene" &&
        ln -sf place.scene "$WORK/link.scene" || return 1
    $RUN $BUILD/editor "$WORK/place.scene" "$WORK/link.scene" > /dev/null || return 1
    tools/scene make tests/saved/mixed.txt > "$WORK/normal.scene" &&
        same "$WORK/normal.scene" "$WORK/place.scene" || return 1
    [ -L "$WORK/link.scene" ] || { echo "a link became a file"; return 1; }
    [ "$(stat -c %a "$WORK/place.scene")" = 640 ] || { echo "the mode changed"; return 1; }
}

# Output that cannot be written is noticed, shown or saved.
editor_output() {
    $RUN $BUILD/editor examples/sector.scene > /dev/full 2> "$WORK/output.log"
    [ $? -eq 2 ] && grep -q 'standard output' "$WORK/output.log" || { echo "a full output"; return 1; }
    $RUN $BUILD/editor examples/sector.scene >&- 2> "$WORK/output.log"
    [ $? -eq 2 ] && grep -q 'standard output' "$WORK/output.log" || { echo "a closed output"; return 1; }
}

nothing_lost() {
    save_past_a_limit 0 && save_past_a_limit 1 && full_disk && save_elsewhere && save_in_place &&
        editor_output && echo "old files kept under a size limit, $full; saved in place"
}
