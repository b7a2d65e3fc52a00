#!/bin/sh
# lessons.sh RCPFEED RCP: walks the lessons of text/ with the two built programs.
#
# Each text is written as a feed, and shown again line for line. The feed is replayed, and the output that is shown is the
# text beside it, NAME-sent.txt.
set -eu
rcpfeed=$(realpath "$1")
rcp=$(realpath "$2")
cd "$(dirname "$0")/text"
feed=$(mktemp)
trap 'rm -f "$feed"' EXIT
for sent in *-sent.txt; do
    name=${sent%-sent.txt}
    "$rcpfeed" write < "$name.txt" > "$feed"
    grep -v '^#' "$name.txt" > "$feed.lines"
    "$rcpfeed" show < "$feed" | diff "$feed.lines" -
    rm -f "$feed.lines"
    "$rcp" replay < "$feed" | "$rcpfeed" show | diff "$sent" -
    echo "$name"
done
