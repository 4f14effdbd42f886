# shellcheck shell=bash
# What the project's scripts ask of the machine. To be sourced by bash; it runs nothing by itself.
#
#   need COMMAND PACKAGE    a command (or, with a slash, a file) that must be there
#   need_rattle             rt must be there
#   need_x86_cc             what compiles and runs a C program over a static library of the project
#   need_tests              all that the tests need, asked for before the first of them
#   x86_cc, x86_cxx         arrays: that C compiler, and its C++ compiler; the library's code is for x86-64
#   x86_run                 array: what stands before an x86-64 program to run it, nothing on x86-64
#   rattle_loader           array: what stands, behind x86_run, before a compiled Rattle program
#
# A need that is not met prints one line that names what is missing, and fails.

machine=$(uname -m)

# The kit's folder: bin/rt stands in it, perhaps reached by a link.
rattle_home=${RATTLE_HOME:-}
if [ -z "$rattle_home" ] && command -v rt >/dev/null; then
    rattle_home=$(dirname "$(dirname "$(readlink -f "$(command -v rt)")")")
fi
rattle_tools=$rattle_home/toolchain

# An Arm machine runs x86-64 programs under an emulator: the kit's own, or else Debian's.
x86_cc=(gcc)
x86_cxx=(g++)
x86_run=()
rattle_loader=()
if [ "$machine" = aarch64 ]; then
    x86_cc=(x86_64-linux-gnu-gcc -static)
    x86_cxx=(x86_64-linux-gnu-g++ -static)
    x86_run=("$rattle_tools/bin/qemu-x86_64")
    [ -x "${x86_run[0]}" ] || x86_run=(qemu-x86_64)
    rattle_loader=("$rattle_tools/lib/ld-linux-x86-64.so.2" --library-path "$rattle_tools/lib")
fi

there() { # COMMAND or FILE
    case $1 in
    */*) [ -e "$1" ] ;;
    *) command -v "$1" >/dev/null ;;
    esac
}

install_package() { # PACKAGE
    local install=(env DEBIAN_FRONTEND=noninteractive apt-get install -y --no-install-recommends "$1")
    "${install[@]}" >/dev/null 2>&1 || { apt-get update && "${install[@]}"; } >/dev/null 2>&1
}

need() { # COMMAND PACKAGE
    there "$1" && return
    if [ "$(id -u)" = 0 ] && there apt-get; then
        echo "$1 is missing: installing the Debian package $2"
        install_package "$2"
        there "$1" && return
    fi
    echo "$1 is missing: install the Debian package $2" >&2
    return 1
}

need_rattle() {
    there rt && return
    echo "rt is missing: put the Rattle kit's bin/rt on PATH" >&2
    return 1
}

need_x86_cc() {
    case $machine in
    x86_64) need "${x86_cc[0]}" gcc && need /usr/include/stdio.h libc6-dev ;;
    aarch64)
        need "${x86_cc[0]}" gcc-x86-64-linux-gnu &&
            need /usr/x86_64-linux-gnu/lib/libc.a libc6-dev-amd64-cross &&
            need "${x86_run[0]}" qemu-user
        ;;
    *)
        echo "this machine is $machine: the project's programs run on x86_64, or emulated on aarch64" >&2
        return 1
        ;;
    esac
}

# The tests' plugin is compiled for this machine, whichever it is; under Debian's qemu it follows x86-64 programs.
need_tests() {
    local cxx_package=g++
    [ "$machine" = x86_64 ] || cxx_package=g++-x86-64-linux-gnu
    need_rattle && need_x86_cc && need "${x86_cxx[0]}" "$cxx_package" && need gcc gcc &&
        need /usr/include/stdio.h libc6-dev && need qemu-x86_64 qemu-user && need make make &&
        need x86_64-linux-gnu-objdump binutils-x86-64-linux-gnu && need pkg-config pkg-config && need rustc rustc && need python3 python3
}
