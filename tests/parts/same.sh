# shellcheck shell=sh
# same.sh: used by every part.

# same EXPECTED FOUND: two files agree, else how they differ.
same() {
    cmp -s "$1" "$2" && return
    diff "$1" "$2" | head -n 10
    echo "$1 and $2 differ"
    return 1
}
