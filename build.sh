# For desk.sh, install.sh and the tests, which read it: building what they need, and saying so. They set $top, the repository's folder,
# and a function `stop` that ends them with a message.

# stale RESULT: whether RESULT is missing or older than a source.
stale() {
    [ ! -f "$1" ] || [ -n "$(find "$top/crates" "$top/crates.txt" -type f -not -path "$top/crates/*/out/*" -newer "$1" | head -n 1)" ]
}

# build VERB CRATE FILE RESULT: lets `rt VERB` prove the crate and make its FILE, which then stands as RESULT. Each crate that is checked is
# named on standard error, and at the end how long it all took; nothing goes to standard output. Calls stop where it fails.
build() {
    local made=$top/crates/$2/out/$3 result=$4 began=$SECONDS log
    command -v rt >/dev/null || stop "the tool 'rt' is missing, and $result has to be built"
    echo "building ${result#"$top"/}" >&2
    log=$(mktemp) || stop "mktemp"
    if (set -o pipefail && cd "$top/crates/$2" && rt "$1" "$2" 2>&1 </dev/null | tee "$log" |
        awk '/^(fn|struct|enum) [a-z_0-9]+::/ { split($2, part, "::"); if (part[1] != last) { last = part[1]; print "  " last; fflush() } }' >&2); then
        rm -f "$log"
    else
        cat "$log" >&2
        rm -f "$log"
        stop "'rt $1 $2' failed"
    fi
    [ -f "$made" ] || stop "'rt $1 $2' made no $made"
    mkdir -p "$(dirname "$result")" && cp "$made" "$result" || stop "$result could not be written"
    echo "built ${result#"$top"/} in $((SECONDS - began)) s" >&2
}

# The two things that are built: the desk, and the library for C.
desk=$top/target/bin/desk
library=$top/target/staticlib/libc_api.a
build_desk() { build run desk desk "$desk"; }
build_library() { build lib c_api libc_api.a "$library"; }
