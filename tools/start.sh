# shellcheck shell=sh
# Starts the program and ends with its status. Read by ./run and by the installed command, before anything else; needs kit.sh, and `ready`, which is
# called with the name of a program before it is started.
# A program of its language has no exit status: it writes a digit to the descriptor that --status-fd names.
# Which kit proved it stands in a file beside it: --proved hands it on, for --version.

# The next file or pipe that is opened would take the place of a descriptor that is closed: what cannot be read, or written, takes it.
true 3>&2 || exec 2>/dev/null
{ true 3<&0; } 2>/dev/null || exec 0>/dev/null
{ true 3>&1; } 2>/dev/null || exec 1</dev/null

# 0 answered, 1 refused (the E line), 2 misuse, or input or output that failed, 3 it cannot be run here.
# keravnoth understands every word. Those of further it hands on, by the digit 3, before it reads or writes anything.
start() { # NAME REMEMBERED-KIT FOLDER ARGUMENTS..
    name=$1 remembered=$2 folder=$3 parent=''
    shift 3
    # The shell waits and cannot hand a signal on: the system ends the program with it, where setpriv can ask for that.
    if setpriv --pdeathsig TERM true 2>/dev/null; then parent='setpriv --pdeathsig TERM'; fi
    for one in keravnoth further; do
        ready "$one"
        if [ ! -d "${toolchain:-}" ] && ! find_kit "$remembered" && [ "$(uname -m)" != x86_64 ]; then
            echo "$name: the program is for x86-64, and this machine runs it with the kit's C library: ${no_kit:?}" >&2
            exit 3
        fi
        if [ "$(uname -m)" != x86_64 ] && ! emulator >/dev/null; then
            echo "$name: the program is for x86-64, and this machine runs it in an emulator: qemu-x86_64 is not on the path" >&2
            exit 3
        fi
        start_one "$folder/$one" "$@"
        case $digit in
        0 | 1 | 2) exit "$digit" ;;
        3) ;;
        *) break ;;
        esac
    done
    # Whoever stopped reading knows why the program was stopped (SIGPIPE).
    [ "$ended" -eq 141 ] || echo "$name: the program ended without its status ($ended): its answer may be cut short" >&2
    exit 2
}

# Sets digit, which the program wrote, and ended, the status by which it ended itself.
start_one() { # PROGRAM ARGUMENTS..
    path=$1 ended=0
    shift
    if { IFS= read -r proved <"$path.proved"; } 2>/dev/null; then set -- --proved "$proved" "$@"; fi
    { digit=$(become "$path" --status-fd 3 "$@" 3>&1 >&4 4>&-) || ended=$?; } 4>&1
}

# Without a kit, x86-64 has a C library of its own.
become() { # PROGRAM ARGUMENTS..
    if [ -d "${toolchain:-}" ]; then on_x86_64 with_parent "$@"; else with_parent "$@"; fi
}

# Becomes a command that is ended when this one is ended by a signal.
# shellcheck disable=SC2086 # several words, or none
with_parent() { # COMMAND..
    exec $parent "$@"
}
