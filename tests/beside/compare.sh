#!/usr/bin/env bash
# Runs quayrun and the reference program on some hundreds of generated scripts and compares every byte.
# usage: compare.sh QUAYRUN store|graph [BUILD_FOLDER]
set -u
here=$(cd "$(dirname "${BASH_SOURCE[0]}")" && pwd)
usage="usage: compare.sh QUAYRUN store|graph [BUILD_FOLDER]"
quayrun=${1:?$usage}
mode=${2:?$usage}
build=${3:-$(mktemp -d)}
mkdir -p "$build"
[ -x "$quayrun" ] || { echo "compare: $quayrun is no program"; exit 1; }
[ "$mode" = store ] || [ "$mode" = graph ] || { echo "$usage"; exit 1; }

for program in reference generate; do
    rustc -O --edition 2021 "$here/$program.rs" -o "$build/$program" || exit 1
done
script=$build/script expected=$build/expected printed=$build/printed
scripts=0 lines=0

# The script in pieces: single bytes, then parts with pauses between them.
in_pieces() {
    dd bs=1 count=300 status=none
    sleep 0.01
    dd bs=4099 count=1 status=none
    sleep 0.01
    cat
}

differs() { # KIND SEED LINES HOW
    echo "compare: kind $1, seed $2, $3 lines, $4: quayrun and the $mode reference differ"
    cmp "$expected" "$printed"
    echo "the script is $script, expected is $expected, printed was $printed"
    exit 1
}

compare() { # KIND SEED LINES
    "$build/generate" "$1" "$2" "$3" >"$script" || exit 1
    "$build/reference" "$mode" <"$script" >"$expected" || exit 1
    "$quayrun" <"$script" >"$printed" && cmp -s "$expected" "$printed" || differs "$1" "$2" "$3" "from a file"
    if [ $(($2 % 10)) = 0 ]; then
        in_pieces <"$script" | "$quayrun" >"$printed" && cmp -s "$expected" "$printed" || differs "$1" "$2" "$3" "in pieces"
    fi
    scripts=$((scripts + 1))
    lines=$((lines + $3))
}

for seed in $(seq 1 40); do
    compare few "$seed" 600
    compare events "$seed" 600
    compare steps "$seed" 1200
    compare damaged "$seed" 500
    compare mixed "$seed" 1200
    compare joining "$seed" 2000
    compare full "$seed" 4000
done
for length in 0 1 2; do compare mixed "$length" "$length"; done
compare full 1 30000
echo "compare: $scripts scripts, $lines lines, quayrun and the $mode reference printed the same"
