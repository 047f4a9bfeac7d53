# shellcheck shell=sh
# Where the Rattle kit is. Read by every script that needs the kit, so that all take the same one.

kit='' toolchain=''
no_kit='the Rattle kit is not found: put its rt on the path, or set RATTLE_HOME to its folder'

# Sets kit, the kit's folder, and toolchain, its compiler, its linker and the C library that it links with; false where there is none.
# The kit is RATTLE_HOME where that is set, else that of the `rt` on the path, else the one that a build left in the file named.
find_kit() { # FILE
    if [ -n "${RATTLE_HOME:-}" ]; then
        kit=$(readlink -f "$RATTLE_HOME") || return 1
    elif kit=$(command -v rt); then
        kit=$(dirname "$(dirname "$(readlink -f "$kit")")")
    elif [ -r "$1" ]; then
        kit=$(cat "$1")
    else
        return 1
    fi
    toolchain=$kit/toolchain
    [ -x "$kit/bin/rt" ] && [ -d "$toolchain" ]
}

# Finds the kit for a script that can do nothing without it, or ends.
need_kit() { # SCRIPT
    find_kit '' || {
        echo "$1: $no_kit" >&2
        exit 3
    }
}

# The name of a program that runs x86-64 code on another machine; false where there is none. The kit has none.
emulator() { command -v qemu-x86_64 || command -v qemu-x86_64-static; }

# Starts a program of x86-64 code by `how` (exec, or a function that ends so): in an emulator where this machine is another.
# The kit's loader by name: the C library that the program was linked with is the kit's, not one of this machine.
on_x86_64() { # HOW PROGRAM ARGUMENTS..
    how=$1
    shift
    set -- "$toolchain/lib/ld-linux-x86-64.so.2" --library-path "$toolchain/lib" "$@"
    if [ "$(uname -m)" != x86_64 ]; then set -- "$(emulator)" "$@"; fi
    "$how" "$@"
}
