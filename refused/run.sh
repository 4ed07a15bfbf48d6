#!/bin/sh
# Programs that the build must refuse before any proof: a value used after it was given away.
# Each NAME.LABEL.edit changes the crate NAME in a copy of the repository, and the build must stop
# with the error that the edit's first line names. One copy serves all edits.
set -eu
cd "$(dirname "$0")/.."
copy=$(mktemp -d)
trap 'rm -rf "$copy"' EXIT
tar -cf - --exclude=out crates.txt crates | tar -xf - -C "$copy"
bad=0
for e in refused/*.edit; do
    name=${e#refused/} name=${name%%.*}
    error=$(sed -n 's/^error: //p' "$e") file=$(sed -n 's/^file: //p' "$e")
    OLD=$(sed -n 's/^old: //p' "$e") NEW=$(sed -n 's/^new: //p' "$e") awk '
        { at = index($0, ENVIRON["OLD"]); if (at) { n++; $0 = substr($0, 1, at - 1) ENVIRON["NEW"] substr($0, at + length(ENVIRON["OLD"])) } print }
        END { if (n != 1) exit 1 }' "crates/$name/$file" >"$copy/crates/$name/$file"
    if (cd "$copy/crates/$name" && rt check) >"$copy/log" 2>&1; then
        echo "$e: NOT REFUSED"
        bad=1
    elif grep -q "error\[$error\]" "$copy/log"; then
        echo "$e: refused, $error"
    else
        echo "$e: refused for another reason:"
        tail -n 5 "$copy/log"
        bad=1
    fi
    cp "crates/$name/$file" "$copy/crates/$name/$file"
done
exit $bad
