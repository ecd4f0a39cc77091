#!/usr/bin/env bash
# Installs the header, the static library (as libbgp_policy.a) and a pkg-config file under a folder: bash install.sh PREFIX.
set -eu

# stop WHY: the install ends here
stop() {
    echo "install.sh: $1" >&2
    exit 2
}

if [ $# -ne 1 ] || [ -z "$1" ] || [ "${1#-}" != "$1" ]; then
    echo "usage: bash install.sh PREFIX" >&2
    exit 2
fi

top=$(CDPATH='' cd -- "$(dirname -- "$0")" && pwd)
# shellcheck source=build.sh
. "$top/build.sh"
if stale "$library"; then build_library; fi

case $1 in
/*) prefix=$1 ;;
*) prefix=$PWD/$1 ;;
esac
case $prefix in
*[[:space:]\$\#\"\'\\]*) stop "white space, quotes, \$, # or \\ in a path that a pkg-config file has to name: $prefix" ;;
esac
version=$(awk '$2 == "BGP_POLICY_VERSION" { gsub("\"", "", $3); print $3 }' "$top/include/bgp_policy.h")
[ -n "$version" ] || stop "the header names no version"
mkdir -p "$prefix/include" "$prefix/lib/pkgconfig" || stop "no folder can be made under $prefix"
install -m 644 "$top/include/bgp_policy.h" "$prefix/include/bgp_policy.h" || stop "the header could not be installed"
install -m 644 "$library" "$prefix/lib/libbgp_policy.a" || stop "the library could not be installed"
cat >"$prefix/lib/pkgconfig/bgp_policy.pc" <<PC || stop "the pkg-config file could not be written"
prefix=$prefix
includedir=\${prefix}/include
libdir=\${prefix}/lib

Name: bgp_policy
Description: Proved routing policy for BGP: roles and route leaks, origin states, the choice of a route
Version: $version
Cflags: -I\${includedir}
Libs: -L\${libdir} -lbgp_policy
PC
