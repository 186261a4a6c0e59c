# What tests/front and tests/front_sizes share: they try the commands capcheck and capsize as their users call them, from the tree,
# installed below DESTDIR, and installed and run by bash. Of each case the exit status, standard output and standard error are compared
# whole; standard error is empty or one sentence. A test sets `command` and reads this, then sets
#   good, good_output    a FILE that is allowed, and what is printed of it
#   takes                the FILEs that it takes, as its usage has them
#   from_input           the words by which standard input is read
#   not_read             what is said where that cannot be read to its end
#   printed, unknown     a text that the program may print, and others that it never prints, as printf takes them
# and calls try_everywhere with the function that has its own cases. The last line is 'N passed, M failed', and the exit status is 0 when
# none failed.
# shellcheck shell=bash disable=SC2154
set -uo pipefail
cd "$(dirname "${BASH_SOURCE[0]}")/.." || exit 2
tree=$PWD
work=$(mktemp -d) && work=$(cd "$work" && pwd -P) || exit 2
trap 'rm -rf "$work"' EXIT
chmod 755 "$work"
passed=0
failed=0
not_written='the output could not be written'

# attempt NAME STATUS OUTPUT SENTENCE COMMAND..: runs a command. Without SENTENCE its standard error must be empty.
attempt() {
    local name=$1 status=$2 output=$3 sentence=$4 got
    shift 4
    "$@" >"$work/out" 2>"$work/err"
    got=$?
    if [ "$got" -eq "$status" ] && printf '%s' "$output" | cmp -s - "$work/out" &&
        printf '%s' "${sentence:+$command: $sentence$'\n'}" | cmp -s - "$work/err"; then
        passed=$((passed + 1))
    else
        failed=$((failed + 1))
        echo "FAILED  $round: $name: status $got, not $status; printed, then said:"
        head -c 400 "$work/out"
        head -c 400 "$work/err"
    fi
}

# The command of this round, stopped where it hangs.
call() { timeout --kill-after=10 60 "${front[@]}" "$@"; }

# The same with other descriptors.
on() { call "${@:2}" <"$1"; }
with_closed_input() { call "$@" <&-; }
with_closed_output() { call "$@" >&-; }
with_closed_error() { call "$@" 2>&-; }
with_nothing_open() { call "$@" <&- >&- 2>&-; }
into_full_device() { call "$@" >/dev/full; }
into_unwritable() { call "$@" 1</dev/null; }
into_small_file() { (ulimit -f 1 && call "$@" >"$work/small"); }
first_line() { call "$@" | sed -n 1p; }
in_directory() { (cd "$1" && call "${@:2}"); }
with_search_path() { (export CDPATH=/usr && in_directory "$@"); }

# perl arranges a descriptor and becomes the command.
by_perl() { perl -e "$1"' exec @ARGV or die' timeout --kill-after=10 60 "${front[@]}" "${@:2}"; }
# The write end stays open, so that there is no end of the input either.
on_empty_nonblocking_pipe() {
    by_perl 'use Fcntl; $^F = 99; pipe(R, W) or die; fcntl(R, F_SETFL, O_NONBLOCK) or die; open(STDIN, "<&R") or die;' "$@"
}
# A peer that goes with bytes unread resets the connection: one line comes, then the error.
on_reset_connection() {
    by_perl 'use Socket; socketpair(S, P, AF_UNIX, SOCK_STREAM, PF_UNSPEC) or die; syswrite(P, "(create 0 64 rw)\n") or die;
        syswrite(S, "?") or die; close(P) or die; open(STDIN, "<&S") or die;' "$@"
}
into_abandoned_pipe() {
    by_perl 'pipe(R, W) or die; open(STDOUT, ">&W") or die; close(R) or die;' "$@"
}

# Root may read every file, so nobody tries.
unprivileged() {
    if [ "$(id -u)" -eq 0 ]; then setpriv --reuid=65534 --regid=65534 --clear-groups "$@"; else "$@"; fi
}
without_rights() { unprivileged timeout --kill-after=10 60 "${front[@]}" "$@"; }

# A trace of 65,536 bytes, and one of one byte more.
longest=$work/longest
{
    echo '(create 0 64 rw)'
    for _ in {1..5027}; do echo '(read 1 0 4)'; done
    for _ in {1..12}; do echo '(read 1 0 16)'; done
} >"$longest"
long=$work/long
{ cat "$longest" && echo; } >"$long"

# Files with names like options, and such as cannot be had.
try_files() {
    attempt 'a name that begins with -' 0 "$good_output" '' in_directory "$work/dashed" ./-name
    attempt 'a name behind --' 0 "$good_output" '' in_directory "$work/dashed" -- -name
    attempt 'a name like an option behind --' 0 "$good_output" '' in_directory "$work/dashed" -- --help
    attempt 'no such file' 2 '' "cannot find $work/none" call "$work/none"
    attempt 'an empty name' 2 '' 'cannot find ' on "$good" ''
    attempt 'a directory' 2 '' "$work is a directory" call "$work"
    attempt 'a directory on standard input' 2 '' "$not_read" on "$work" "${from_input[@]}"
    if unprivileged test -x "${front[-1]}"; then
        attempt 'an unreadable file' 2 '' "cannot open $work/secret" without_rights "$work/secret"
    else
        echo "skipped $round: an unreadable file: only its owner can reach ${front[-1]}"
    fi
    attempt 'closed standard input' 2 '' 'standard input is closed' with_closed_input "${from_input[@]}"
    attempt 'a FILE with standard input closed' 0 "$good_output" '' with_closed_input "$good"
    attempt 'a standard input with nothing to give' 2 '' "$not_read" on_empty_nonblocking_pipe "${from_input[@]}"
    attempt 'a connection that is reset' 2 '' "$not_read" on_reset_connection "${from_input[@]}"
}

# Outputs that cannot be written.
try_outputs() {
    attempt 'into a full device' 2 '' "$not_written" into_full_device "$good"
    attempt '(long) into a full device' 2 '' "$not_written" into_full_device "$long"
    attempt 'into a descriptor for reading' 2 '' "$not_written" into_unwritable "$good"
    attempt 'into a pipe without reader' 2 '' "$not_written" into_abandoned_pipe "$good"
    attempt 'closed standard output' 2 '' 'standard output is closed' with_closed_output "$good"
    attempt 'closed standard error' 0 "$good_output" '' with_closed_error "$good"
    attempt 'closed standard error, no such file' 2 '' '' with_closed_error "$work/none"
    attempt 'all three closed' 2 '' '' with_nothing_open "$good"
}

try_options() {
    attempt '--help' 0 "usage: $command [--] $takes"$'\n' '' first_line --help
    attempt '--version' 0 "$command $(sed -n 's/^Version: //p' "$package")"$'\n' '' call --version
    attempt '--help into a full device' 2 '' "$not_written" into_full_device --help
    attempt '--version and a FILE' 2 '' '--version takes nothing after it' call --version "$good"
    attempt 'an unknown option' 2 '' 'unknown option --quiet' call --quiet "$good"
    attempt 'a short option' 2 '' 'unknown option -q' call -q
}

# The command by other names.
try_links() {
    local script=${front[-1]} parent
    ln -sf "$script" "$work/links/absolute"
    ln -sf ../links/absolute "$work/links/relative"
    parent=${script%/*}
    front[-1]=$work/links/absolute
    attempt 'through a symbolic link' 0 "$good_output" '' call "$good"
    front[-1]=links/relative
    attempt 'through two symbolic links' 0 "$good_output" '' in_directory "$work" "$good"
    front[-1]=${parent##*/}/$command
    attempt 'by a relative name, with CDPATH' 0 "$good_output" '' with_search_path "$parent/.." "$good"
    front[-1]=$script
}

# becomes PROGRAM TEXT: a stand-in for the program.
becomes() {
    printf '#!/bin/sh\n%s\n' "$2" >"$1"
    chmod 755 "$1"
}

# Programs that are missing or fail, behind an installed front.
try_programs() {
    local program=$work/standin/libexec/kelzoud/$command shared text
    shared=${program%/*}/front.sh
    mkdir -p "$work/standin/bin" "${program%/*}"
    cp "$command" "$work/standin/bin/"
    front=("$1" "$work/standin/bin/$command")
    rm -f "$program" "$shared"
    attempt 'what the fronts share is missing' 2 '' "cannot find $shared" call "$good"
    cp front.sh "$shared"
    attempt 'missing' 2 '' "the program is missing: $program" call "$good"
    becomes "$program" "printf '$printed'"
    # shellcheck disable=SC2059
    attempt 'as it should be' 0 "$(printf "$printed")"$'\n' '' call "$good"
    chmod 644 "$program"
    attempt 'no program' 2 '' "the program is missing: $program" call "$good"
    becomes "$program" 'exit 0'
    attempt 'silent' 2 '' 'the program printed nothing' call "$good"
    becomes "$program" "printf '$printed'; exit 3"
    attempt 'ends badly' 2 '' 'the program ended with status 3' call "$good"
    becomes "$program" "printf '$printed'; kill -KILL \$\$"
    attempt 'dies' 2 '' 'the program ended with status 137' call "$good"
    becomes "$program" "echo '$command: $not_read' >&2"
    attempt 'cannot read' 2 '' "$not_read" call "$good"
    becomes "$program" "echo '$command: $not_read' >&2; exit 2"
    attempt 'cannot read, and says so by its status too' 2 '' "$not_read" call "$good"
    for text in "${unknown[@]}"; do
        becomes "$program" "printf '$text'"
        attempt "prints $text" 2 '' 'the program printed something unknown' call "$good"
    done
}

# The program is built where it is missing or older than a source, by an rt that prints and reads, and whose program prints too.
try_building() {
    local copy=$work/copy program crate
    crate=$copy/crates/$command
    program=$copy/target/bin/$command
    rm -rf "$copy"
    mkdir -p "$crate/src" "$crate/specs" "$crate/proofs" "$copy/tools"
    cp "$command" front.sh crates.txt "$copy/"
    front=(env "PATH=$copy/tools:$PATH" "$1" "$copy/$command")
    becomes "$copy/tools/rt" 'exit 1'
    attempt 'fails' 2 '' 'the program could not be built' call "$good"
    becomes "$copy/tools/rt" 'exit 0'
    attempt 'makes no program' 2 '' "the program is missing: $program" call "$good"
    becomes "$copy/tools/rt" "echo \"$command: rt \$*\" >&2; echo printed; cat; mkdir -p out; cp '$tree/target/bin/$command' out"
    attempt 'missing' 0 "$good_output" 'rt run' on "$good" "${from_input[@]}"
    attempt 'up to date' 0 "$good_output" '' on "$good" "${from_input[@]}"
    touch "$crate/out/work"
    attempt 'older than what rt keeps' 0 "$good_output" '' on "$good" "${from_input[@]}"
    touch -d '1 hour ago' "$program"
    attempt 'older than a source' 0 "$good_output" 'rt run' on "$good" "${from_input[@]}"
    touch -d '1 hour ago' "$program"
    attempt 'older, with closed standard error' 0 "$good_output" '' with_closed_error "$good"
    attempt 'up to date again' 0 "$good_output" '' call "$good"
}

# try_everywhere OWN: the cases of the function OWN and those above, wherever the command stands.
try_everywhere() {
    local libraries installed package place name shell
    round=preparation
    libraries=${KELZOUD_LIB:-target/lib}
    if [ ! -f "$libraries/libkelzoud.a" ]; then make -s library; fi
    for name in capcheck capsize; do "./$name" /dev/null >/dev/null; done
    mkdir "$work/dashed" "$work/links"
    for name in dashed/-name dashed/--help secret; do cp "$good" "$work/$name"; done
    chmod 000 "$work/secret"
    for place in "DESTDIR=$work/staged PREFIX=/prefix" "DESTDIR= PREFIX=$work/prefix"; do
        # shellcheck disable=SC2086
        attempt "install, $place" 0 '' '' make -s install-built libraries="$libraries" $place
    done
    installed=$work/staged/prefix
    package=$installed/lib/pkgconfig/kelzoud.pc
    for name in include/kelzoud.h lib/libkelzoud.a lib/libkelzoud-events.a lib/pkgconfig/kelzoud.pc lib/pkgconfig/kelzoud-events.pc \
        "bin/$command" "libexec/kelzoud/$command" libexec/kelzoud/front.sh; do
        attempt "installed: $name" 0 '' '' test -s "$installed/$name"
    done
    attempt 'the crate has the same version' 0 '' '' \
        grep -qx "version = \"$(sed -n 's/^Version: //p' "$package")\"" bindings/rust/Cargo.toml
    for round in 'in the tree' installed 'installed, by bash'; do
        case $round in
            'in the tree') front=("$tree/$command") ;;
            installed) front=("$installed/bin/$command") ;;
            *) front=(bash "$work/prefix/bin/$command") ;;
        esac
        "$1"
        try_files
        try_outputs
        try_options
        try_links
    done
    for shell in sh bash; do
        round="a program, by $shell"
        try_programs "$shell"
        round="a build, by $shell"
        try_building "$shell"
    done
    round=preparation
    attempt 'uninstall' 0 '' '' make -s uninstall DESTDIR="$work/staged" PREFIX=/prefix
    attempt 'nothing is left' 0 '' '' find "$installed" -type f
    attempt 'no directory of its own is left' 1 '' '' test -e "$installed/libexec/kelzoud"
    echo "$passed passed, $failed failed"
    [ "$failed" -eq 0 ]
}
