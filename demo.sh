#!/bin/sh
# Proves and builds the programs, lays the sample town in a folder of its own, asks for routes, and shows what happens.
set -eu
cd "$(dirname "$0")"
here=$(pwd)
work=$(mktemp -d)
trap 'rm -rf "$work"' EXIT

# Proves and builds a program, which a run with no input ends; what it prints and writes then is thrown away.
build() {
    (cd "crates/$1" && rt run </dev/null) >"$work/build.log" 2>&1 || { cat "$work/build.log"; exit 1; }
    rm -f "crates/$1/map.img"
}

build lay
build routes
cd "$work"

echo '$ lay sample.town'
"$here/crates/lay/out/lay" "$here/sample.town"
echo '$ od -A d -t x1 map.img'
od -A d -t x1 map.img

echo '$ lay long.town     (its third line is a link of 1,000,001 metres)'
printf 'link 1 2 350 2\nlink 1 3 200 5\nlink 2 4 1000001 1\n' >long.town
"$here/crates/lay/out/lay" long.town 2>&1 || echo "status $?"

echo '$ routes     (what it is told stands left, what it replies right)'
"$here/crates/lay/out/lay" "$here/sample.town" >/dev/null
printf 'ask 1 4\nnext\nnext\nclose 2\ntrial 3\nend\nnext\n' >lines
"$here/crates/routes/out/routes" <lines >replies
while read -r line && read -r reply <&3; do
    printf '%-22s %s\n' "$line" "$reply"
done <lines 3<replies
