#!/bin/sh
# Tries wrong bodies that the gate does not try: those in crates/CRATE/must-fail/*.md of the crates that are named.
#   bench/tried.sh CRATE..      each of them alone; the prover has to refuse it. Prints what came of each, and a row for
#                               docs/tried.md; ends with 1 where one was proved or could not be tried
#   bench/tried.sh -l CRATE..   lists them
# Who changes a crate runs it for that crate before the change lands. The crate and those below it are proved first,
# where no run on this machine has kept that. In a page a body is a heading `## NAME` and a fenced block of the lines
# `file:`, `old:` and `new:` of an edit; a heading without a block is passed over.
set -eu
list=
[ "${1:-}" = -l ] && { list=1; shift; }
: "${1:?names a crate}"
cd "$(dirname "$0")/.."
work=$(mktemp -d)
trap 'rm -rf "$work"' EXIT

# Writes the bodies of a page as edits into a folder.
bodies() {
    awk -v folder="$2" '
        /^## / { name = $2; next }
        /^```/ { inside = !inside; next }
        inside && name != "" { print > (folder "/" name ".edit") }' "$1"
}

mkdir "$work/repo"
cp crates.txt HANDLES "$work/repo"
tar -c --exclude=out --exclude=must-fail crates | tar -x -C "$work/repo"
for crate in "$@"; do
    edits=$work/repo/crates/$crate/must-fail
    mkdir "$edits"
    for page in "crates/$crate/must-fail"/*.md; do
        if [ -f "$page" ]; then bodies "$page" "$edits"; fi
    done
    [ -z "$list" ] || find "$edits" -name '*.edit' | sed "s|.*/|$crate |; s|\.edit$||" | sort
done
[ -z "$list" ] || exit 0

cd "$work/repo"
git init -q
status=0
rt ci "$@" > "$work/log" 2>&1 || status=$?
grep -E 'must-fail |BAD EDIT|NOT PROVED|passed, ' "$work/log" || tail -n 20 "$work/log"
for crate in "$@"; do
    tried=$(grep -c "must-fail $crate/" "$work/log" || true)
    refused=$(grep -c "must-fail $crate/.*: refused" "$work/log" || true)
    echo "| \`$crate\` | $tried | $refused | $(date -u +%Y-%m-%d) |"
done
exit "$status"
