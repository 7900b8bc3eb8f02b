#!/usr/bin/env bash
# Builds what is named, as far as something that it is made of has changed. One call waits for another.
# It says on standard error what it is at: on a terminal in one line that is renewed, else a line for each crate that is proved anew.
# rt makes programs and archives in crates/NAME/out/, where rt ci leaves the programs too; those are copied to the places below.
#
# usage: ./build.sh PART..    archive       the library for C: target/staticlib/libjanus.a
#                             window        the window's function by itself: target/staticlib/libtest_window.a
#                             callers       what either caller gets (02, wish 9): target/staticlib/libtest_callers.a
#                             short         the short lists (02, wish 12): target/staticlib/libtest_short.a
#                             reference     the separately written program and what compares the two: target/reference/
#                             use_report    a program of the crates: target/bin/use_report; likewise use_binder, test_run, test_poll,
#                                           test_house and test_bench
#
# It needs the Rattle kit, and for the reference rustc and gcc.
set -euo pipefail
. "$(dirname "$0")/common.sh"
helped "$@"
(($# > 0)) || refuse "no part is named"
needs rt
for part; do
    case $part in
    archive | window | callers | short) ;;
    reference) needs rustc gcc ;;
    use_* | test_*) (($(crates_of "$part") > 0)) || refuse "there is no crate called '$part'" ;;
    *) refuse "there is no part called '$part'" ;;
    esac
done
cd "$root"
mkdir -p target/built
exec 9>target/built/lock
flock 9

# FILE PATH..: whether the file is not there, or one of the paths has changed since it was made. What rt makes in a crate's folder, and the
# folder itself, whose time that changes, do not count.
stale() {
    [[ ! -e $1 || -n $(find -L "${@:2}" \( -path 'crates/*/out' -prune \) -o ! \( -type d -regex 'crates\(/[^/]*\)?' \) -newer "$1" -print -quit) ]]
}

# PART TELL NAME COMMAND..: builds the part by the command. What that says goes to `TELL NAME`, which tells how far it is, and to a log.
build() {
    local stamp=target/built/$1 status
    touch "$stamp.new"
    "${@:4}" 2>&1 9>&- | "$2" "$3" >"$stamp.log" && status=0 || status=$?
    [[ $status == 0 ]] || {
        cat "$stamp.log" >&2
        echo "build.sh: $1 was not built; what was said is above" >&2
        exit 1
    }
    mv "$stamp.new" "$stamp"
}

# VERB CRATE: rt VERB in the crate's folder. What rt has built of a program it runs: on the stored input, and what it prints is dropped.
by_rt() {
    cd "crates/$2"
    if [[ $1 == run ]]; then rt run <stdin >/dev/null; else rt "$1"; fi
}

# PART VERB CRATE MADE: proves a crate by `rt VERB`, which makes a file of MADE's name in its out/, unless what it is made of has not changed
# since that was made, as where rt ci made it; and copies it to MADE.
prove() {
    local out=crates/$3/out/${4##*/} of=(crates crates.txt "$(type -P rt)")
    if [[ -e $4 ]] && ! stale "target/built/$1" "${of[@]}"; then return; fi
    if stale "$out" "${of[@]}"; then
        build "$1" proving "$3" by_rt "$2" "$3"
    else
        touch -r "$out" "target/built/$1"
    fi
    mkdir -p "${4%/*}"
    cp "$out" "$4.new"
    mv "$4.new" "$4"
}

# NAME: tells that something is compiled; what is said goes from standard input to standard output.
compiling() {
    local began=$SECONDS
    tell "compiling $1"
    cat
    tell_end "compiled $1 in $((SECONDS - began)) s"
}

archive=target/staticlib/libjanus.a
callers=target/staticlib/libtest_callers.a
short=target/staticlib/libtest_short.a
for part; do
    case $part in
    archive) prove archive lib janus "$archive" ;;
    window) prove window lib test_window target/staticlib/libtest_window.a ;;
    callers) prove callers lib test_callers "$callers" ;;
    short) prove short lib test_short "$short" ;;
    reference)
        prove archive lib janus "$archive"
        prove callers lib test_callers "$callers"
        prove short lib test_short "$short"
        if [[ ! -e target/reference/reference ]] || stale target/built/reference reference "$archive" "$callers" "$short"; then
            build reference compiling "the separately written program, with its tests" reference/build.sh "$archive" "$callers" "$short"
        fi
        ;;
    *) prove "$part" run "$part" "target/bin/$part" ;;
    esac
done
