# Builds a program of this repository where that hasn't been done, and runs it: for relay and replay, which source this file and give the program's name, by which
# it speaks, and its crate. A program that is built and newer than its sources is run, and nothing else is touched. Else it is proved and built first, by one start
# at a time: `rt` takes no lock, and two of them in one tree spoil each other's work.
# shellcheck shell=bash
# shellcheck disable=SC2154
[ -e /dev/fd/2 ] || exec 2>/dev/null
root=$(dirname "$(dirname "$(readlink -f "$0")")")
program=$root/crates/$crate/out/$crate
held=

# Says why it ends, and ends.
fail() { # STATUS WORDS...
    local status=$1
    shift
    printf '%s: %s\n' "$name" "$*" >&2
    exit "$status"
}

note() { # WORDS...
    printf 'note: %s\n' "$*" >&2
}

# The crates that the program needs, each after those that it needs itself.
needed() {
    awk -F: '
        function need(name, list, n, k) {
            if (name in seen) return
            seen[name]
            n = split(deps[name], list, " ")
            for (k = 1; k <= n; k++) if (list[k] in deps) need(list[k])
            print name
        }
        { sub(/#.*/, ""); deps[$1] = $2 }
        END { need(crate) }' crate="$crate" "$root/crates.txt"
}

# Whether the program is built and nothing that it is made of is newer. A folder is newer where a file of it is gone.
is_built() {
    [ -x "$program" ] || return 1
    local one
    [ -z "$(needed | while read -r one; do
        find "$root/crates.txt" "$root/crates/$one"/{src,specs,proofs} -newer "$program" -print -quit 2>/dev/null
    done)" ]
}

# Ends what was started to prove, and this, by the signal that came. The provers don't hear a Ctrl-C: a shell's background processes ignore it.
stop() { # SIGNAL
    local prover
    trap '' HUP INT QUIT TERM
    for prover in $(jobs -p); do
        kill -s TERM -- "-$prover" 2>/dev/null || kill -s TERM "$prover"
    done
    wait
    trap - "$1"
    kill -s "$1" $$
}

# Proves a crate, with what rt says of it. The program's own is built too, by running it on no input.
prove() { # CRATE
    local said=$root/target/$name.log verb=check
    [ "$1" != "$crate" ] || verb=run
    (cd "$root/crates/$1" && exec setsid rt "$verb" "$1") </dev/null >"$said" 2>&1 &
    if wait $!; then
        awk '/^logic=proved / { last = $1 " " $2 } END { print "rt: " name " " last }' name="$1" "$said" >&2
        return 0
    fi
    cat "$said" >&2
    fail 1 "$1 isn't proved, so there is no program to run"
}

# Proves and builds what the program needs, and nothing else. The lock is on the folder of the repository, as target/ can be removed meanwhile; the provers
# keep it, so that it holds until the last of them is gone.
build() {
    local tool one crates k=0 began=$root/target/$name.began signal
    for tool in rt flock setsid; do
        command -v "$tool" >/dev/null || fail 127 "$tool is missing, which proves and builds the program: README.md, 'What it needs'"
    done
    exec 9<"$root"
    if ! flock -n 9; then
        note 'another start is proving and building: waiting for it'
        flock 9
        is_built && return
    fi
    if ! { mkdir -p "$root/target" && : >"$began"; } 2>/dev/null; then
        fail 1 "the program must be built, and $root/target can't be written"
    fi
    mapfile -t crates < <(needed)
    note "proving and building the program: ${#crates[@]} crates, about ten minutes where none is proved yet. Ctrl-C stops it"
    for signal in HUP INT QUIT TERM; do
        # shellcheck disable=SC2064
        trap "stop $signal" "$signal"
    done
    for one in "${crates[@]}"; do
        k=$((k + 1))
        note "$one, crate $k of ${#crates[@]}"
        prove "$one"
    done
    touch -r "$began" "$program"
    trap - HUP INT QUIT TERM
}

# Takes a file for one program at a time, or says that another has it. The program keeps the lock, so that it holds until that is gone, whatever becomes of this. That
# the file can't be opened is the program's to say.
lock() { # FILE
    command -v flock >/dev/null || fail 127 "flock is missing, which keeps two programs from one file: README.md, 'What it needs'"
    { exec {held}<>"$1"; } 2>/dev/null || return 0
    flock -n "$held"
    case $? in
    0) ;;
    1) fail 1 "$1: another $name has it" ;;
    *) fail 1 "$1: can't be locked" ;;
    esac
}

# Passes on what the program says on standard error, and answers 1 where it says why it failed. It ends with the program, whatever signals come.
watch() {
    local line status=0
    trap '' HUP INT QUIT TERM
    [ -z "$held" ] || exec {held}>&-
    while IFS= read -r line || [ -n "$line" ]; do
        printf '%s\n' "$line"
        case $line in "$name: "*) status=1 ;; esac
    done
    exit "$status"
}

# Hands a signal to the program, or keeps it until there is one. What a shell starts in the background ignores INT and QUIT, so these come as TERM.
pass() { # SIGNAL
    passed=$1
    [ -n "$child" ] || return
    case $1 in
    INT | QUIT) kill -s TERM "$child" ;;
    *) kill -s "$1" "$child" ;;
    esac 2>/dev/null
}

# Runs the program, and ends as it did. A reader that goes away, and a limit on the size of files, are failures like any other that keeps the program from writing.
run() { # [ARGUMENT...]
    local said watcher child='' passed='' status signal
    trap '' PIPE XFSZ
    for signal in HUP INT QUIT TERM; do
        # shellcheck disable=SC2064
        trap "pass $signal" "$signal"
    done
    exec {said}> >(watch >&2)
    watcher=$!
    "$program" "$@" <&0 2>&"$said" {said}>&- &
    child=$!
    [ -z "$passed" ] || pass "$passed"
    exec {said}>&-
    while
        wait "$child"
        status=$?
        kill -0 "$child" 2>/dev/null
    do :; done
    wait "$watcher" || status=1
    trap - HUP INT QUIT TERM
    [ -z "$passed" ] || kill -s "$passed" $$
    exit "$status"
}

# Prints the version, and ends.
version() {
    echo "$name $(cat "$root/VERSION")"
    exit 0
}

# Sees to it that standard input and output are open, and that the program is built.
prepare() {
    [ -e /dev/fd/0 ] || fail 1 'standard input is closed'
    [ -e /dev/fd/1 ] || fail 1 'standard output is closed'
    is_built || build
    exec 9<&-
}
