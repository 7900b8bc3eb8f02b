#!/usr/bin/env bash
# Builds the library and installs what a C program needs under PREFIX, which is made if it is not there:
# include/janus.h, lib/libjanus.a and lib/pkgconfig/janus.pc.
# The first time takes minutes; what it is at, and how long it took, is told on standard error.
#
# usage: ./install.sh PREFIX
#
# It needs the Rattle kit.
set -euo pipefail
. "$(dirname "$0")/common.sh"
helped "$@"
[[ $# == 1 && -n $1 && $1 != -* ]] || refuse "one folder to install to is needed: ./install.sh PREFIX"
needs rt
mkdir -p "$1"
prefix=$(cd "$1" && pwd)
cd "$root"

./build.sh archive
install -d "$prefix/include" "$prefix/lib/pkgconfig"
install -m 644 include/janus.h "$prefix/include/janus.h"
install -m 644 target/staticlib/libjanus.a "$prefix/lib/libjanus.a"
cat >"$prefix/lib/pkgconfig/janus.pc" <<END
prefix=${prefix// /\\ }
includedir=\${prefix}/include
libdir=\${prefix}/lib

Name: janus
Description: Janus agreement between up to 64 seats, run from sheets
Version: $(sed -n 's/^#define JANUS_VERSION "\(.*\)"$/\1/p' include/janus.h)
Cflags: -I\${includedir}
Libs: -L\${libdir} -ljanus
END
echo "installed include/janus.h, lib/libjanus.a and lib/pkgconfig/janus.pc under $prefix"
