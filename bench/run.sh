#!/bin/sh
# Times the program routes beside an unproved peer, on maps that it makes. README.md beside it says how to read the tables.
#     sh bench/run.sh [REPETITIONS]
# ROUTES=PROGRAM times another program in place of crates/routes/out/routes, and SEED=NUMBER makes other maps.
set -eu
routes=${ROUTES:+$(realpath "$ROUTES")}
cd "$(dirname "$0")/.."
routes=${routes:-$(pwd)/crates/routes/out/routes}
lay=$(pwd)/crates/lay/out/lay
work=$(mktemp -d)
trap 'rm -rf "$work"' EXIT

# Proves and builds a program that is missing, which a run with no input ends.
build() {
    echo "building $1"
    (cd "crates/$1" && rt run </dev/null) >"$work/build.log" 2>&1 || { cat "$work/build.log"; exit 1; }
    rm -f "crates/$1/map.img"
}

[ -x "$routes" ] || build routes
[ -x "$lay" ] || build lay
g++ -O2 -std=c++17 -o "$work/peer" bench/peer.cpp

python3 bench/towns.py "$work/maps" "${SEED:-71}"
for map in "$work"/maps/*; do
    (cd "$map" && "$lay" town.txt >lay.log)
done
python3 bench/measure.py "$work/maps" "$routes" "$work/peer" "${1:-5}"
