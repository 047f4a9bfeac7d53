# shellcheck shell=sh
# Proves and builds the two programs and the library where they are not built. Read by ./run, ./build and ./install, which set
# `name` (their own) and `here` (the repository).
: "${name:?}" "${here:?}"
# shellcheck source=tools/kit.sh
. "$here/tools/kit.sh"

programs=$here/target/bin
# The static library of the calls for C is a crate of its own, over crate cabi.
library_crate=cabi_c
library=$here/target/lib/libkeravnoth.a
shared=$here/target/lib/libkeravnoth.so
# The shared library's name bears the interface's major number: a program asks the loader for that one.
soname=libkeravnoth.so.1
log=$here/target/build.log

say() { echo "$name: $*" >&2; }
cannot() {
    say "$*"
    exit 3
}

# A crate with what it reaches, a line each: its name and what it names.
reached_by() { # CRATE
    awk -v wanted="$1" '
        function visit(crate, names, count, k) {
            if (!(crate in named) || crate in seen) return
            seen[crate] = 1
            count = split(named[crate], names, " ")
            for (k = 1; k <= count; k++) visit(names[k])
            print crate ":" named[crate]
        }
        { sub(/#.*/, ""); gsub(/[ \t]+/, " ") }
        split($0, part, / ?: ?/) == 2 { sub(/ .*/, "", part[1]); named[part[1]] = part[2] }
        END { visit(wanted) }' "$here/crates.txt"
}

# One sum over all that is proved and compiled of a crate, and over nothing else: an editor's swap file is none of it.
sum_of() { # CRATE
    reached=$(reached_by "$1")
    {
        echo "$reached"
        # shellcheck disable=SC2046 # a crate's name is one word
        (cd "$here/crates" && find $(echo "$reached" | sed 's/:.*//') -name out -prune -o -type f ! -name '.*' \
            \( -path '*/src/*.rt' -o -path '*/specs/*.antt' -o -path '*/proofs/*.antt' \) -exec sha256sum {} +) | LC_ALL=C sort
    } | sha256sum | cut -d ' ' -f 1
}
file_sum() { sha256sum <"$1" | cut -d ' ' -f 1; }

# Whether FILE was built from what stands there now, and is still what was built.
is_built() { # CRATE FILE
    [ -e "$2" ] && [ -s "$2.proved" ] && [ -r "$2.sum" ] && [ "$(cat "$2.sum")" = "$(sum_of "$1") $(file_sum "$2")" ]
}

# The programs are crates of the same names: keravnoth, which answers, and further, whose words need more than an answer.
build_program() { # CRATE
    is_built "$1" "$programs/$1" || alone "$1" "$programs/$1" make_program
}

build_library() {
    is_built $library_crate "$library" || alone $library_crate "$library" make_library
    is_linked || link_shared
}

# Whether the shared library was linked from the static one as it is, and is still what was linked.
is_linked() {
    [ -r "$shared.sum" ] && [ -e "$shared" ] && [ "$(cat "$shared.sum")" = "$(file_sum "$library") $(file_sum "$shared")" ]
}

# The same code as a shared library. The kit's own linker makes it, on every machine.
link_shared() {
    find_kit "" || cannot "$(basename "$shared") is not linked, and $no_kit"
    "$toolchain/bin/ld.lld" -shared -soname "$soname" -z now -z noexecstack --version-script "$here/tools/keravnoth.map" \
        --whole-archive "$library" --no-whole-archive "$toolchain/lib/libc.so.6" -o "$shared.$$" ||
        cannot "$(basename "$shared") cannot be linked"
    mv -f "$shared.$$" "$shared"
    echo "$(file_sum "$library") $(file_sum "$shared")" >"$shared.sum"
}

# Makes FILE, one build at a time: who comes second waits, and finds it built.
alone() { # CRATE FILE MAKE
    find_kit "" || cannot "$(basename "$2") is not built, and $no_kit"
    command -v flock >/dev/null || cannot "$(basename "$2") is not built, and flock, which keeps two builds apart, is not found"
    { mkdir -p "$(dirname "$2")" && true >>"$here/target/lock"; } 2>/dev/null || cannot "$(basename "$2") is not built, and $here/target cannot be written"
    exec 9>>"$here/target/lock"
    flock -n 9 || {
        say "another build is under way: waiting for it"
        flock 9
    }
    if ! is_built "$1" "$2"; then
        sum=$(sum_of "$1")
        say "proving and building $(basename "$2"), some $(minutes "$(recorded "$(reached_by "$1" | sed 's/:.*//')")") min where nothing is proved yet; the kit's notes go to $log"
        "$3" "$1" "$2" || cannot "$(basename "$2") is not proved, so it is not built: see $log"
        # Any kit will do: proved is proved in its logic, which is kept beside what was built.
        "$kit/bin/rt" version >"$2.proved"
        # The files that were there when the build began: one that was changed meanwhile is built the next time.
        echo "$sum $(file_sum "$2")" >"$2.sum"
        echo "$kit" >"$here/target/kit"
    fi
    exec 9>&-
}

# Puts a file that was built in the place of another, whole or not at all.
put_built() { # FROM TO
    cp "$1" "$2.$$" && mv -f "$2.$$" "$2"
}

make_program() { # CRATE FILE
    # Where `rt ci` has just passed, as .ci/run says, it has proved this program, and built it from what stands here.
    if [ -z "${OVER_RT_CI:-}" ] || [ ! -x "$here/crates/$1/out/$1" ]; then
        # rt starts what it has built: this asks for its version.
        with_progress "$1" "$kit/bin/rt" run -- --version || return
    fi
    put_built "$here/crates/$1/out/$1" "$2"
}

make_library() { # CRATE FILE
    # `rt ci` proves a static library and compiles none. Those below it stand where it built them, but rt itself would prove them once more.
    if [ -n "${OVER_RT_CI:-}" ] && built_by_rt_ci "$1"; then
        with_progress "$1" over_libraries "$1" "$toolchain" "out/lib$1.a" || return
    else
        with_progress "$1" "$kit/bin/rt" lib || return
    fi
    put_built "$here/crates/$1/out/lib$1.a" "$2"
}

# Whether the libraries below a crate are all those of `rt ci`: rt's other commands leave a stamp beside each that they build.
built_by_rt_ci() { # CRATE
    for below in $(reached_by "$1" | sed 's/:.*//'); do
        [ "$below" = "$1" ] || { [ -e "$here/crates/$below/out/rlib/$below.rlib/format" ] && [ ! -e "$here/crates/$below/out/rlib/stamp" ]; } || return
    done
}

# Proves a static library over the libraries that stand built below it, and compiles it, as `rt lib` does that builds those first. In the crate's folder.
over_libraries() { # CRATE TOOLCHAIN OUT
    reached=$(reached_by "$1")
    crate=$1 tools=$2 out=$3
    set -- --crate-name "$crate" src/lib.rt --crate-type staticlib --links "$crate=" --extern "std=$kit/rlibs/std.rlib" -L "dependency=$kit/rlibs"
    for below in $(echo "$reached" | sed -n "s/^$crate://p"); do
        set -- "$@" --extern "$below=$here/crates/$below/out/rlib/$below.rlib"
    done
    for below in $(echo "$reached" | sed 's/:.*//'); do
        [ "$below" = "$crate" ] || set -- "$@" -L "dependency=$here/crates/$below/out/rlib"
    done
    mkdir -p out
    "$kit/bin/rattle" build "$@" --antt-project "$kit/rattle/logic/antt-project.json" --logic-built "$kit/logic_built" --jobs 2 \
        --backend llvm --toolchain "$tools" -o "$out"
}

# Runs a command that proves in the crate's folder, with its words in the log, and tells each crate as it is done.
with_progress() { # CRATE COMMAND..
    reached=$(reached_by "$1" | sed 's/:.*//')
    place=$here/crates/$1
    shift
    # Not on this script's standard input, which is the table.
    {
        (cd "$place" && "$@" </dev/null 2>&1)
        echo "the kit ended with $?"
    } | tell_progress
}

# The seconds that crates took when tools/seconds was recorded, in all.
recorded() { # CRATES
    echo "$1" | awk 'NR == FNR { took[$1] = $2; next } { all += took[$1] } END { print all + 0 }' "$here/tools/seconds" -
}

minutes() { # SECONDS
    echo $((($1 + 59) / 60))
}

# How long what is left may take: as much by the clock for each recorded second as the crates before took, where these tell enough.
time_left() { # SECONDS
    if [ "$measured" -gt 60 ]; then set -- "$(($1 * clock / measured))"; fi
    [ "$1" -eq 0 ] || echo "; some $(minutes "$1") min left"
}

tell_progress() {
    all=$(echo "$reached" | wc -l) rest=$(recorded "$reached")
    done=0 measured=0 clock=0 kept=' ' status=1
    last=$(date +%s)
    while IFS= read -r line; do
        echo "$line" >&3
        case $line in
        # The check of another copy of the repository is begun with, which is nearly all of the work.
        'rt: '*': begins with what a check kept in '*)
            crate=${line#rt: } crate=${crate%%:*}
            kept="$kept$crate " done=$((done + 1)) last=$(date +%s)
            its=$(recorded "$crate")
            rest=$((rest - its))
            say "$done of $all, $crate, proved before$(time_left "$rest")"
            ;;
        'crate '*': modules loaded='*)
            crate=${line#crate } crate=${crate%%:*} now=$(date +%s)
            case $kept in
            *" $crate "*) last=$now && continue ;;
            esac
            done=$((done + 1)) its=$(recorded "$crate")
            rest=$((rest - its)) measured=$((measured + its)) clock=$((clock + now - last))
            say "$done of $all, $crate, $((now - last)) s$(time_left "$rest")"
            last=$now
            ;;
        'fn '*': not proved'* | 'fn '*': no proof'* | 'rt: the library '*' did not build'*) say "${line#rt: }" ;;
        'the kit ended with '*) status=${line##* } ;;
        esac
    done 3>"$log"
    return "$status"
}
