#!/usr/bin/env bash
# The desk on standard input or on one file; `bash desk.sh --help` prints the frames and the answers.
set -eu

page() {
    cat <<'PAGE'
usage: bash desk.sh <file      frames from standard input
       bash desk.sh FILE       frames from a file
       bash desk.sh --help     this page

Each line is one frame in hex digits of either case, at most 8,192. Each output line holds
the line number, the answer and, on answer 0, the result in hex; else "-". A receipt's has
a fourth field: on answers 0 and 1 how many tags of the block, communities that begin
43 00, are above 2, and so thrown out; else "-".

Frames (bytes in brackets)
  01  session   local AS [4], remote AS [4], local role [1], strict [1], mode [1],
                one administration [1], OPEN parameters [0 to 255]
                                                      result: the remote role
  02  receipt of an IPv4 route
                prefix length [1], prefix [4], block [0 to 4,073]
                                                      result: state and block
  03  sending   source [1], state [1], block [0 to 4,073]
                                                      result: block
  04  IPv4 VRP  prefix [4], length [1], maximum length [1], AS [4]
  12  receipt of an IPv6 route
                prefix length [1], prefix [16], block [0 to 4,073]
                                                      result: state and block
  14  IPv6 VRP  prefix [16], length [1], maximum length [1], AS [4]

  role    0 Provider, 1 RS, 2 RS-Client, 3 Customer, 4 Peer
  strict  0 or 1: whether the neighbour must send its role
  mode    0 default (as 2), 1 tag, 2 tag and withhold invalid routes, 3 prioritise (as 1);
          towards an RS-Client
  one administration
          1: both ends are under one, and tags cross: a receipt keeps tags of 0 to 2, and
          a sending tags towards any role; else 0. Not 1 where the local role is RS: a
          route server must strip tags
  source  FF own route, else the role of the neighbour it was learned from
  state   0 valid, 1 not found, 2 invalid, 3 unavailable

Answers
  0  done                            6  too long, or 4,096 VRPs of the family held
  1  ineligible, a leak              7  no room: the result is over 4,073 bytes
  2  withheld                        8  OPEN parameters malformed
  3  attributes malformed            9  bad VRP record
  4  session rejected               12  line unreadable, or no session
  5  setting out of range

A readable 01 line that is not answered 0 leaves no session. VRPs stay. See docs/DESK.md.
PAGE
}

# stop WHY: the run ends before the desk starts
stop() {
    echo "desk.sh: $1" >&2
    exit 2
}

[ $# -le 1 ] || stop "one file at most; see 'bash desk.sh --help'"
if [ "${1-}" = --help ]; then
    page
    exit 0
fi
if [ $# -eq 1 ]; then
    [ -e "$1" ] || stop "no such file: $1"
    if [ -d "$1" ] || [ ! -r "$1" ]; then stop "not a readable file: $1"; fi
fi

top=$(CDPATH='' cd -- "$(dirname -- "$0")" && pwd)
# shellcheck source=build.sh
. "$top/build.sh"
if [ ! -x "$desk" ] || stale "$desk"; then build_desk; fi
[ $# -eq 0 ] || exec <"$1"
exec "$desk"
