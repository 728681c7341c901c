# shellcheck shell=sh disable=SC2086,SC2154
# install.sh: an installed copy, used from where it is, and removed again.

# A host against an installed copy, found by pkg-config: with the shared library, and all static.
host_installed() {
    flags=$(PKG_CONFIG_PATH="$1/lib/pkgconfig" pkg-config --cflags --libs chachaqom) &&
        [ "$(PKG_CONFIG_PATH="$1/lib/pkgconfig" pkg-config --modversion chachaqom)" = "$version" ] || return 1
    eval "linked installed $CC -std=c99 -Wall -Wextra -Wpedantic -Werror tests/installed.c $flags \
        '-Wl,-rpath,$1/lib'" &&
        ${NM%nm}readelf -d "$WORK/linked-installed" | grep -q 'NEEDED.*libchachaqom\.so\.2' || return 1
    eval "linked installed-static $CC -std=c99 -static tests/installed.c $flags"
}

# The installed tools work from where they are.
tools_installed() {
    "$1/bin/chachaqom-scene" make examples/sector.txt | "$1/bin/chachaqom-report" > "$WORK/tools.txt" &&
        same crates/report/stdout "$WORK/tools.txt" && [ -s "$1/share/man/man1/chachaqom-scene.1" ] &&
        [ -s "$1/share/man/man1/chachaqom-report.1" ]
}

# Into a prefix whose name a careless script would take apart or run, and away again.
installed() {
    version=$(sed -n 's/^#define CHACHAQOM_VERSION "\(.*\)"/\1/p' include/chachaqom.h)
    prefix="$PWD/$WORK/a prefix; \$(touch hit) & more"
    $MAKE install PREFIX="$prefix" && tools_installed "$prefix" || return 1
    plain=$PWD/$WORK/prefix
    $MAKE install PREFIX="$plain" && tools_installed "$plain" && host_installed "$plain" || return 1
    spaced="$PWD/$WORK/with space"
    $MAKE install PREFIX="$spaced" && host_installed "$spaced" || return 1
    for each in "$prefix" "$plain" "$spaced"; do
        $MAKE uninstall PREFIX="$each" && [ -z "$(find "$each" ! -type d)" ] || return 1
    done
    [ ! -e hit ] || { echo "a prefix was run"; return 1; }
    echo "three prefixes; hosts with the shared and the static library, tools, manual pages; removed again"
}
