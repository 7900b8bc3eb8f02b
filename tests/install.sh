#!/usr/bin/env bash
# Installs to a temporary folder, and builds and runs the example against what was installed there and nothing else: from C and
# from C++, by the flags of the pkg-config file, and inside a shared library that hides the library's names.
set -euo pipefail
. "$(dirname "$0")/../common.sh"
takes_nothing "$@"
needs rt gcc g++ nm
cd "$root"
room=$(mktemp -d)
trap 'rm -rf "$room"' EXIT
fail() { echo "install: FAILED: $1" >&2; exit 1; }

for words in "" "one two" --what; do
    # shellcheck disable=SC2086  # the words are arguments
    if said=$(./install.sh $words 2>&1); then fail "arguments '$words' were taken"; fi
    [[ $said == *"./install.sh PREFIX"* ]] || fail "arguments '$words': $said"
done

./install.sh "$room/a prefix"
cp examples/run_sheet.c "$room/example.c"
cp tests/c_entry.expected "$room/expected"
cd "$room"
pc="a prefix/lib/pkgconfig/janus.pc"
find "a prefix" -type f | sort | diff - <(printf 'a prefix/%s\n' include/janus.h lib/libjanus.a lib/pkgconfig/janus.pc)

# The words of a field of the pkg-config file, one to a line. Its variables and words are written as the shell's are.
field() {
    local IFS=
    eval "$(grep '^[a-z]*=' "$pc")"
    eval "printf '%s\n' $(sed -n "s/^$1: //p" "$pc")"
}
mapfile -t cflags < <(field Cflags)
mapfile -t libs < <(field Libs)
if command -v pkg-config >/dev/null; then
    export PKG_CONFIG_PATH="a prefix/lib/pkgconfig"
    eval "said=($(pkg-config --cflags --libs janus))"
    [[ ${said[*]} == "${cflags[*]} ${libs[*]}" ]] || fail "pkg-config says ${said[*]}"
    [[ $(pkg-config --modversion janus) == "$(field Version)" ]] || fail "pkg-config says another version"
fi

gcc "${cflags[@]}" example.c "${libs[@]}" -o from_c
./from_c | diff expected -
g++ "${cflags[@]}" -x c++ example.c -x none "${libs[@]}" -o from_cpp
./from_cpp | diff expected -

# The example as a shared library, and the names that it shows.
names() { nm -D --defined-only "$1" | sed -n 's/.* //p' | sort | tr '\n' ' '; }
shared() { gcc -shared -fPIC "${cflags[@]}" -Dmain=run_example example.c "${libs[@]}" "$@"; }
shared -o libopen.so
[[ $(names libopen.so) == *janus_run* ]] || fail "the name janus_run should be seen where nothing hides it"
shared -Wl,--exclude-libs,libjanus.a -o libhidden.so
[[ $(names libhidden.so) == "run_example " ]] || fail "the shared library shows $(names libhidden.so)"
printf 'int run_example(void);\nint main(void) { return run_example(); }\n' >host.c
gcc host.c -L. -lhidden "-Wl,-rpath,$room" -o host
./host | diff expected -
echo "install: header, archive and pkg-config file, used from C, from C++ and in a shared library"
