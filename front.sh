# What the scripts capcheck and capsize share: each is the front to the proved program of its name, in the tree and installed. The program
# prints, and ends with status 0 whatever it found. The front judges what it printed, and writes that on, byte for byte: only then is its
# own status 0 or 1. A script sets `name`, `usage` and `here`, the folder that it stands in, and then reads this.
# shellcheck shell=sh disable=SC2154
set -u
LC_ALL=C
export LC_ALL
# The one place of the version; the Makefile takes it from here.
version=0.1.0
newline='
'

fail() {
    printf '%s: %s\n' "$name" "$1" >&2
    exit 2
}

put() {
    printf '%s' "$1" 2>/dev/null || fail 'the output could not be written'
}

# A closed descriptor would be given to the next file that is opened. A reader that is gone and a file at its largest are failed
# writes, not signals.
(exec 3>&2) || exec 2>/dev/null
(exec 3>&1) 2>/dev/null || fail 'standard output is closed'
trap '' PIPE XFSZ

# take_option WORD..: does what the first word asks for, if it is an option. Whether it is --, behind which there are none.
take_option() {
    case ${1-} in
        --help | --version)
            [ $# -eq 1 ] || fail "$1 takes nothing after it"
            if [ "$1" = --help ]; then put "$usage"; else put "$name $version$newline"; fi
            exit 0
            ;;
        --) return 0 ;;
        -?*) fail "unknown option $1" ;;
    esac
    return 1
}

# look_for FILE: sees to it that there is something to be read, - being standard input.
look_for() {
    if [ "$1" = - ]; then
        (exec 3<&0) 2>/dev/null || fail 'standard input is closed'
    else
        [ -e "$1" ] || fail "cannot find $1"
        [ ! -d "$1" ] || fail "$1 is a directory"
    fi
}

# build_program: rt proves the program, leaves it with its crate, and runs it once, here on no input.
build_program() {
    made=$here/crates/$name/out/$name
    (cd "$here/crates/$name" && rt run) </dev/null >/dev/null || return 1
    [ ! -x "$made" ] || { mkdir -p "${program%/*}" && cp "$made" "$program.$$" && mv -f "$program.$$" "$program"; }
}

# find_program: in the tree the program is built first where it is missing or older than a source.
find_program() {
    if [ -f "$here/crates.txt" ]; then
        program=$here/target/bin/$name
        if [ ! -x "$program" ] || [ -n "$(find "$here/crates.txt" "$here"/crates/*/src "$here"/crates/*/specs "$here"/crates/*/proofs -newer "$program")" ]; then
            build_program || fail 'the program could not be built'
        fi
    else
        program=${here%/*}/libexec/kelzoud/$name
    fi
    [ -x "$program" ] || fail "the program is missing: $program"
}

# fail_as_said SENTENCE: passes on what the program said on standard error.
fail_as_said() {
    sentence=${1#"$name: "}
    fail "${sentence%%"$newline"*}"
}

# run_program WORD..: what it printed and what it said on standard error go into `text`, and its status stands behind the last '='.
run_program() {
    text=$({ "$program" "$@"; printf '=%s' "$?"; } 2>&1)
    status=${text##*=}
    text=${text%=*}
    case $text in
        "$name: "*) fail_as_said "$text" ;;
    esac
    [ "$status" = 0 ] || fail "the program ended with status $status"
    [ -n "$text" ] || fail 'the program printed nothing'
}

fail_unknown() {
    fail 'the program printed something unknown'
}
