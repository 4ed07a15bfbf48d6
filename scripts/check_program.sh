#!/usr/bin/env bash
# Runs the built program on texts that it must accept and refuse, and compares standard output, the exit status and
# whether standard error has one line. It builds the program first, which proves it and all below it.
set -u
cd "$(dirname "$0")/.."
program=$PWD/crates/flow_diagram/out/flow_diagram
work=$(mktemp -d)
trap 'rm -rf "$work"' EXIT
rm -f "$program"
# the program refuses an empty text, so its status here says nothing: what counts is that it was built
(cd crates/flow_diagram && rt run </dev/null) >"$work/build" 2>&1
[ -x "$program" ] || {
    tail -n 20 "$work/build"
    echo "flow_diagram was not built"
    exit 1
}
bad=0
total=0

# expect STATUS OUTPUT < text: the text is on standard input, OUTPUT has \n for line feeds
expect() {
    total=$((total + 1))
    cat >"$work/in"
    "$program" <"$work/in" >"$work/out" 2>"$work/err"
    local status=$? lines
    lines=$(wc -l <"$work/err")
    printf "$2" >"$work/want"
    if [ "$status" -ne "$1" ] || ! cmp -s "$work/out" "$work/want" || [ "$lines" -ne "$1" ]; then
        echo "case $total: status $status, standard error $lines lines, output:"
        cat "$work/out"
        echo "expected status $1, output:"
        cat "$work/want"
        bad=1
    fi
}

expect 0 'stations 3\nlegs 3\nfaces 2\nbends 2\n' <examples/triangle.svx
expect 0 'stations 6\nlegs 5\nfaces 1\nbends 0\n' <examples/streamway.svx
expect 1 'refused 5 line 3\n' <examples/taken.svx
expect 1 'refused 9 line 0\n' < <(printf '')
expect 1 'refused 9 line 0\n' < <(printf '\n; nothing\n \t\r\n')
expect 1 'refused 21 line 1\n' < <(printf '1\t2 10 0;note\r')
expect 0 'stations 2\nlegs 1\nfaces 1\nbends 0\n' < <(printf '1\t2 10 0 0;note\r')
expect 0 'stations 2\nlegs 1\nfaces 1\nbends 0\n' < <(printf '1 2 10 359.9 0')
expect 1 'refused 23 line 1\n' < <(printf '1 2 10 360 0')
expect 1 'refused 23 line 1\n' < <(printf '1 2 10 360.0 0')
expect 0 'stations 2\nlegs 1\nfaces 1\nbends 0\n' < <(printf '9999 1 10 0 0')
expect 1 'refused 22 line 2\n' < <(printf '\n0 1 10 0 0')
expect 1 'refused 22 line 1\n' < <(printf '1 010 10 0 0')
expect 1 'refused 22 line 1\n' < <(printf '1 10000 10 0 0')
expect 1 'refused 2 line 1\n' < <(printf '1 1 10 0 0')
expect 1 'refused 21 line 1\n' < <(printf '1 2 10 0')
expect 1 'refused 21 line 1\n' < <(printf '1 2 10 0 0 0')
expect 0 'stations 2\nlegs 1\nfaces 1\nbends 0\n' < <(printf '1 2 +10.25 0 -90')
expect 1 'refused 23 line 1\n' < <(printf '1 2 10.123 0 0')
expect 0 'stations 2\nlegs 1\nfaces 1\nbends 0\n' < <(printf '*data normal from to tape compass clino ; as usual\n1 2 3 4 5')
expect 1 'refused 20 line 1\n' < <(printf '*data normal from to tape compass\n')
expect 1 'refused 20 line 1\n' < <(printf '*begin\n')
expect 1 'refused 5 line 2\n' < <(printf '1 2 1 0 0\n3 2 1 0 0')
# 65,536 bytes are read, one more is refused before anything else
expect 1 'refused 9 line 0\n' < <(head -c 65536 /dev/zero | tr '\0' ' ')
expect 1 'refused 24 line 0\n' < <(head -c 65537 /dev/zero | tr '\0' ' ')
expect 1 'refused 24 line 0\n' < <(head -c 1000000 /dev/zero | tr '\0' ';')
# caves that cannot be planned: not connected, not bimodal, not planar
expect 1 'refused 12 line 0\n' < <(printf '1 2 1 0 0\n3 4 1 0 0\n')
expect 1 'refused 13 line 0\n' < <(printf '1 2 1 0 0\n3 1 1 270 0\n1 4 1 180 0\n5 1 1 90 0\n')
expect 1 'refused 14 line 0\n' < <(printf '1 2 1 0 0\n1 2 1 10 0\n1 2 1 20 0\n')
# a table takes 256 legs, and refuses the 257th
expect 0 'stations 257\nlegs 256\nfaces 1\nbends 0\n' < <(seq 1 256 | awk '{ print $1, $1 + 1, 10, 0, 0 }')
expect 1 'refused 7 line 257\n' < <(seq 1 257 | awk '{ print $1, $1 + 1, 10, 0, 0 }')

if [ "$bad" -eq 0 ]; then echo "flow_diagram: $total cases as expected"; fi
exit "$bad"
