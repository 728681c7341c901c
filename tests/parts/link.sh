# shellcheck shell=sh disable=SC2086,SC2154
# link.sh: the headers under strict compilers, the archive in every kind of program.

STRICT="-Wall -Wextra -Wpedantic -Wshadow -Wconversion -Wsign-conversion -Werror"

# The headers give no warning: as C, as C++, with gcc and with clang, from the first standard they are for.
quiet_headers() {
    for standard in c99 c11 gnu17; do
        $CC -std=$standard $STRICT -Iinclude -fsyntax-only tests/installed.c || return 1
        $CLANG -std=$standard $STRICT -Iinclude -fsyntax-only tests/installed.c || return 1
        tried=$((tried + 2))
    done
    for standard in c++11 c++17 gnu++20; do
        for compiler in "$CXX" "$CLANGXX"; do
            $compiler -std=$standard $STRICT -Wold-style-cast -Wuseless-cast -Wno-unknown-warning-option \
                -Iinclude -fsyntax-only -x c++ tests/installed.c || return 1
            tried=$((tried + 1))
        done
    done
}

# linked NAME COMMAND..: a program is made, and runs as it should.
linked() {
    link_name=$WORK/linked-$1
    shift
    "$@" -o "$link_name" && $RUN "$link_name" > "$WORK/linked.txt" || return 1
    grep -q 'the converse of inside is contains' "$WORK/linked.txt" || return 1
    tried=$((tried + 1))
}

# The archive in a PIE, in a program that is none, in a static one, and in a shared object that a program uses.
link_with() {
    compiler=$1 which=$2
    plugin=$WORK/libplugin-$which.so
    linked pie-$which $compiler -Iinclude -fPIE -pie tests/installed.c $ARCHIVE &&
        linked no-pie-$which $compiler -Iinclude -fno-pie -no-pie tests/installed.c $ARCHIVE &&
        linked static-$which $compiler -Iinclude -static tests/installed.c $ARCHIVE &&
        $compiler -Iinclude -fPIC -shared -Wl,-z,defs -Wl,-z,text -Dmain=installed_main tests/installed.c \
            $ARCHIVE -o "$plugin" || return 1
    echo 'int installed_main(void); int main(void) { return installed_main(); }' > "$WORK/main.c"
    linked shared-$which $compiler "$WORK/main.c" "$plugin" "-Wl,-rpath,$PWD/$WORK"
}

# The calls that the header declares, one a line.
declared_calls() {
    sed -n 's/^uint32_t \(chachaqom_[a-z_]*\)(.*/\1/p' include/chachaqom.h | sort
}

# What the libraries show and need: the declared calls, and three functions of the C library at most.
names_shown() {
    declared_calls > "$WORK/declared.txt" && [ -s "$WORK/declared.txt" ] || return 1
    $NM -g --defined-only $ARCHIVE | awk 'NF == 3 { print $3 }' | sort > "$WORK/archive.txt"
    $NM -D --defined-only $BUILD/libchachaqom.so.2 | awk '{ print $3 }' | sort > "$WORK/shared.txt"
    same "$WORK/declared.txt" "$WORK/archive.txt" && same "$WORK/declared.txt" "$WORK/shared.txt" || return 1
    needs=$($NM -u $ARCHIVE | awk 'NF == 2 { print $2 }' | sort -u | grep -vx 'memcpy\|memset\|memmove')
    [ -z "$needs" ] || { echo "the archive needs $needs"; return 1; }
}

linking() {
    tried=0
    $MAKE $BUILD/libchachaqom.so.2 && quiet_headers && link_with "$CC" gcc && link_with "$CLANG" clang &&
        names_shown && echo "$tried programs and headers with gcc and clang; only the calls are shown"
}
