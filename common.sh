# What the scripts share. They read it with `. PATH/common.sh`; it is not run by itself. It sets `root` to the folder of the repository.
root=$(cd "$(dirname "${BASH_SOURCE[0]}")" && pwd)
called=$0

# ARGUMENTS: with --help or -h alone, prints the comment at the head of the script that was called, and ends.
helped() {
    [[ $# == 1 && ($1 == --help || $1 == -h) ]] || return 0
    sed -n '2,${ /^#/!q; s/^# \{0,1\}//; p; }' "$called"
    exit 0
}

# WORDS..: says on standard error that the script was called wrongly, and ends with 2.
refuse() {
    echo "${called##*/}: $*; try --help" >&2
    exit 2
}

# ARGUMENTS: as `helped`; there may be no others.
takes_nothing() {
    helped "$@"
    (($# == 0)) || refuse "it takes no arguments; this is too much: $*"
}

# PROGRAM..: ends with 127, in one line that names what is missing, unless each of them is on PATH.
needs() {
    local program missing=
    for program; do
        type -P "$program" >/dev/null && continue
        case $program in
        rt) program="rt, the command of the Rattle kit (README.md says more)" ;;
        rustc) program="rustc, the Rust compiler" ;;
        esac
        missing+=${missing:+; }$program
    done
    [[ -z $missing ]] || {
        echo "${called##*/}: not found on PATH: $missing" >&2
        exit 127
    }
}

# WORDS..: what the script is at, on standard error. On a terminal one line that is renewed, else a line each.
tell() {
    if [[ -t 2 ]]; then printf '\r\e[K%s' "$*" >&2; else printf '%s\n' "$*" >&2; fi
}

# WORDS..: what the script has done, on standard error. On a terminal it takes the place of what the script was at, and stays.
tell_end() {
    if [[ -t 2 ]]; then printf '\r\e[K' >&2; fi
    printf '%s\n' "$*" >&2
}

# KIND NAME [FILE]: plays FILE, a poll or a house as KIND says, or examples/NAME.KIND: makes the bytes of its text, and runs the proved
# program test_KIND on them.
plays() {
    local text=${3:-$root/examples/$2.$1}
    (($# <= 3)) || refuse "one $1 at a time; this is too much: ${*:4}"
    needs rt python3
    bytes=$(mktemp)
    trap 'rm -f "$bytes"' EXIT
    "$root/examples/$1.py" "$text" "$bytes"
    "$root/build.sh" "test_$1"
    "$root/target/bin/test_$1" <"$bytes"
}

# CRATE: how many crates of crates.txt it is made of, itself among them.
crates_of() {
    awk -F: -v crate="$1" '
        function count(name, found, parts, i) {
            if (!(name in needed) || name in seen) return 0
            seen[name]
            found = 1
            for (i = split(needed[name], parts, " "); i > 0; i--) found += count(parts[i])
            return found
        }
        /^[^# ]/ { split($1, words, " "); needed[words[1]] = $2 }
        END { print count(crate) }' "$root/crates.txt"
}

# CRATE: what rt says of the crate and what that is made of, on standard input, goes to standard output; each crate that is proved is told as
# it is. Of one that has not changed rt says nothing.
proving() {
    local line of=$1 proved=0 all began=$SECONDS
    all=$(crates_of "$1")
    tell "proving $1 and what it is made of, $all crates"
    while IFS= read -r line || [[ -n $line ]]; do
        printf '%s\n' "$line"
        if [[ $line =~ ^crate\ ([a-z0-9_]+):\ modules\  ]]; then of=${BASH_REMATCH[1]}; fi
        [[ $line == "logic=proved "* ]] || continue
        proved=$((proved + 1))
        tell "proved $of"
    done
    tell_end "proved $1, $proved of its $all crates anew, in $((SECONDS - began)) s"
}
