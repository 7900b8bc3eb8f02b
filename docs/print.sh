#!/usr/bin/env bash
# Makes pages for the printer of docs/PAPER-CASES.md, on A4: FOLDER/PAPER-CASES.pdf, and FOLDER/form.pdf, the blank form alone, to be
# copied. It fails if the rules, the picture or the form do not fit on one page each.
#
# usage: docs/print.sh [FOLDER]      target/print where left out
#
# It needs Debian's packages weasyprint, python3-markdown and fonts-dejavu-core. Those that are missing it installs, as root or by sudo.
set -euo pipefail
. "$(dirname "$0")/../common.sh"
helped "$@"
[[ $# -le 1 && ${1-} != -* ]] || refuse "one folder is named at most"
needs dpkg-query apt-get

packages=(weasyprint python3-markdown fonts-dejavu-core)
missing=()
for package in "${packages[@]}"; do
    [[ $(dpkg-query -W -f '${Status}' "$package" 2>/dev/null) == *" installed" ]] || missing+=("$package")
done
if ((${#missing[@]})); then
    apt=(apt-get -q)
    [[ $(id -u) == 0 ]] || { needs sudo; apt=(sudo "${apt[@]}"); }
    tell "installing ${missing[*]}"
    log=$(mktemp)
    trap 'rm -f "$log"' EXIT
    { "${apt[@]}" update && "${apt[@]}" install -y --no-install-recommends "${missing[@]}"; } >"$log" 2>&1 || {
        cat "$log" >&2
        echo "print.sh: not installed: ${missing[*]}; what was said is above" >&2
        exit 1
    }
    tell_end "installed ${missing[*]}"
fi
/usr/bin/python3 "$root/docs/print.py" "${1:-$root/target/print}"
