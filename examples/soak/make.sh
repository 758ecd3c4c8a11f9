#!/usr/bin/env bash
# make.sh N START FOLDER: writes into the folder the files of the batch that `gprs soak N START` makes: soak.gp, acct.csv, moves.csv
# and faults.csv. Then `gprs run soak.gp --faults faults.csv` in that folder ends as `gprs soak N START` does.
set -eu

usage() {
    echo "usage: $0 N START FOLDER, with N from 4 to 20000 and START from 0 to 18446744073709551615" >&2
    exit 2
}

# A number without its leading zeros, which has at most so many digits.
number() {
    local digits="$1"
    [[ "$digits" =~ ^[0-9]+$ ]] || usage
    while [[ "$digits" == 0?* ]]; do digits="${digits#0}"; done
    [ "${#digits}" -le "$2" ] || usage
    echo "$digits"
}

[ $# -eq 3 ] || usage
moves="$(number "$1" 5)" || exit 2
start="$(number "$2" 20)" || exit 2
folder="$3"
if [ "$moves" -lt 4 ] || [ "$moves" -gt 20000 ]; then usage; fi
# Two numbers of 20 digits compare as texts do; as the shell's numbers they would have wrapped round.
last=18446744073709551615
# shellcheck disable=SC2071
if [ "${#start}" -eq 20 ] && [[ "$start" > "$last" ]]; then usage; fi

# Numbers are drawn by a linear congruential generator (Knuth's constants of MMIX). The shell's numbers have 64 bits and wrap round, as its
# state does; what is drawn are the upper 31 bits.
state=$((start))
draw() {
    state=$((state * 6364136223846793005 + 1442695040888963407))
    drawn=$(((state >> 33) & 0x7fffffff))
}

# 100 accounts, with 1000 each.
for ((account = 0; account < 100; account++)); do
    echo "$account,1000"
done >"$folder/acct.csv"

# Moves from an account to another one, of an amount from 1 to 500.
for ((move = 0; move < moves; move++)); do
    draw && giver=$((drawn % 100))
    draw && taker=$(((giver + 1 + drawn % 99) % 100))
    draw && amount=$((drawn % 500 + 1))
    echo "$giver,$taker,$amount"
done >"$folder/moves.csv"

# A fault in each of 40 parts of the run, which has four subthreads for each move and 25 more: a position, attempt 0, after how many
# subthreads it is found out, and how it damages.
width=$(((4 * moves + 25) / 40))
for ((part = 0; part < 40; part++)); do
    draw && position=$((part * width + drawn % width))
    draw && delay=$((drawn % 65))
    draw && mask=$((drawn + 1))
    echo "$position,0,$delay,$mask"
done >"$folder/faults.csv"

here="$(dirname "$(readlink -f "${BASH_SOURCE[0]}")")"
[ "$here" -ef "$folder" ] || cp "$here/soak.gp" "$folder/soak.gp"
