#!/usr/bin/env bash
# A failed read is never taken for the end of the input. (01: "Each number is returned in its row's situation and in no other.") Each
# program that reads gets its stored input by a pipe and in pieces, and each read in turn fails: by a signal (EINTR), by a device (EIO).
# Then standard output is empty and standard error has one line. With no failed read it prints what is stored.
set -euo pipefail
. "$(dirname "$0")/../common.sh"
takes_nothing "$@"
needs rt gcc
cd "$root"
programs=(use_report use_binder test_run test_poll test_house test_bench)
./build.sh "${programs[@]}"
out=target/tests/failed_reads
rm -rf "$out"
mkdir -p "$out"
gcc -O2 -Wall -Wextra -Werror -shared -fPIC tests/failed_reads.c -o "$out/read.so"
errors=(4 5)

fail() { # WORDS: about the program, the read and the error at hand
    echo "failed_reads: $program: read $read fails with $error: $*"
    cat "$out/stdout" "$out/stderr"
    exit 1
}

run() { # the program, with that read failed by that error; whether it came to that
    rm -f "$out/forced"
    PIECE=$piece FAIL=$read ERROR=$error FORCED=$out/forced LD_PRELOAD=$PWD/$out/read.so \
        "target/bin/$program" < <(cat "crates/$program/stdin") >"$out/stdout" 2>"$out/stderr"
    [[ -e $out/forced ]]
}

for program in "${programs[@]}"; do
    size=$(stat -c %s "crates/$program/stdin")
    piece=$((size / 4))
    name=${program#use_}
    for error in "${errors[@]}"; do
        read=1
        while run; do
            [[ ! -s $out/stdout && $(cat "$out/stderr") == "$name: standard input cannot be read" ]] || fail "it should say that, and print nothing"
            [[ $(wc -l <"$out/stderr") == 1 ]] || fail "that is not one line"
            read=$((read + 1))
        done
        cmp "$out/stdout" "crates/$program/stdout" || fail "no read failed, and it prints something else than it should"
        [[ ! -s $out/stderr ]] || fail "no read failed, and it says something"
        # All of the input in its pieces; the programs that read to its end read once more.
        ((read - 1 >= (size + piece - 1) / piece && read > 4)) || fail "only $((read - 1)) reads could be made to fail"
    done
    # An input that ends in the middle shows that the pieces matter: the program prints something else and says nothing, or it prints nothing
    # and says something else.
    error=0
    read=2
    run || fail "the input should have ended there"
    ! cmp -s "$out/stdout" "crates/$program/stdout" || fail "it prints the same for a part of its input"
    [[ -s $out/stdout && ! -s $out/stderr || ! -s $out/stdout && -s $out/stderr ]] || fail "it should either print or say something"
    if grep -q "cannot be read" "$out/stderr"; then fail "it says that a read failed"; fi
    echo "$program: each of its reads fails in turn, and it prints nothing"
done
