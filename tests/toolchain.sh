# shellcheck shell=sh disable=SC2034,SC2086
# toolchain.sh: sourced, from the top of the repository, by scripts and by the Makefile's recipes.
# The library is x86-64 code on every machine. Sets
#   CC, CXX          compilers that make x86-64 programs (on x86-64 a CC or CXX that is set is kept)
#   NM               lists the names in such a program
#   CLANG, CLANGXX   other compilers, for tests alone
#   RUN              what stands before such a program to run it: nothing, or the kit's emulator
#   UNRUN            why some tests are left out on this machine; empty where none is
# and installs by apt-get what is missing: a C compiler, and with TOOLCHAIN_FOR=tests what tests need.

toolchain_missing=

# toolchain_need COMMAND PACKAGE..: the packages, where there is no such command.
toolchain_need() {
    command -v "$1" > /dev/null 2>&1 && return
    shift
    toolchain_missing="$toolchain_missing $*"
}

# Stands for the emulator where there is no kit.
toolchain_without_kit() {
    echo "toolchain: x86-64 programs need the kit's emulator: 'rt' is not on the PATH" >&2
    return 2
}

case $(uname -m) in
aarch64 | arm64)
    toolchain_need x86_64-linux-gnu-gcc gcc-x86-64-linux-gnu
    [ -e /usr/x86_64-linux-gnu/include/stdio.h ] ||
        toolchain_missing="$toolchain_missing libc6-dev-amd64-cross"
    CC=x86_64-linux-gnu-gcc
    CXX=x86_64-linux-gnu-g++
    NM=x86_64-linux-gnu-nm
    CLANG="clang --target=x86_64-linux-gnu"
    CLANGXX="clang++ --target=x86_64-linux-gnu"
    if toolchain_rt=$(command -v rt); then
        toolchain_rt=$(readlink -f "$toolchain_rt")
        RUN="${toolchain_rt%/*/*}/on/aarch64/toolchain/bin/qemu-x86_64 -L /usr/x86_64-linux-gnu"
    else
        RUN=toolchain_without_kit
    fi
    UNRUN="the programs are x86-64 code and run in an emulator here"
    ;;
*)
    : "${CC:=gcc}" "${CXX:=g++}" "${NM:=nm}" "${CLANG:=clang}" "${CLANGXX:=clang++}"
    toolchain_need "${CC%% *}" gcc libc6-dev
    RUN=
    UNRUN=
    ;;
esac

if [ "${TOOLCHAIN_FOR:-}" = tests ]; then
    toolchain_need make make
    toolchain_need pkg-config pkg-config
    toolchain_need python3 python3
    toolchain_need clang clang
    case $CXX in
    x86_64-linux-gnu-g++) toolchain_need "$CXX" g++-x86-64-linux-gnu ;;
    *) toolchain_need "${CXX%% *}" g++ ;;
    esac
    [ -n "$RUN" ] || toolchain_need valgrind valgrind libc6-dbg
fi

if [ -n "$toolchain_missing" ]; then
    echo "toolchain: installing$toolchain_missing" >&2
    toolchain_log=$(mktemp)
    if ! { apt-get update && DEBIAN_FRONTEND=noninteractive apt-get install -y \
        --no-install-recommends $toolchain_missing; } > "$toolchain_log" 2>&1; then
        cat "$toolchain_log" >&2
        echo "toolchain: apt-get could not install$toolchain_missing; what it said stands above" >&2
        rm -f "$toolchain_log"
        exit 1
    fi
    rm -f "$toolchain_log"
fi
