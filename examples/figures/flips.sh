#!/usr/bin/env bash
# flips.sh [HEAVY [LIGHT]]: what becomes of runs in which one bit of a register turns, of `gprs` and of `gprs_twice`, by the crews `one` and `wave`: HEAVY runs
# (1,000) each of simulation.gp with a fifth of its draws, and LIGHT runs (5,000) each of the batch of `soak 20000 1`; then as many with a bit of the heap.
# Prints the rows of flips.py. Three rows are made at a time. The programs have to be built, and python3 and ptrace be there; else it is passed over.
set -u
cd "$(dirname "$(readlink -f "${BASH_SOURCE[0]}")")/.." || exit 1

heavy="${1:-1000}"
light="${2:-5000}"
top="$PWD/.."
command -v python3 >/dev/null || { echo "$0: passed over, since python3 is not there" >&2; exit 0; }

made="$(mktemp -d)"
trap 'rm -rf "$made"' EXIT
"$top/.ci/release" --links "$made" || exit 1
sed 's/500000/100000/' simulation.gp >"$made/heavy.gp"
soak/make.sh 20000 1 "$made" || exit 1

# The calls of flips.py, one a line.
calls() {
    local where program crew
    for where in "" --memory; do
        for crew in one wave; do
            for program in gprs gprs_twice; do
                echo "--count $heavy $where $made/$program run heavy.gp --crew $crew"
                echo "--count $light $where $made/$program run soak.gp --crew $crew"
            done
        done
    done
}

echo '| run | same | put right | told | crash | hang | wrong |'
echo '|---|---|---|---|---|---|---|'
calls | xargs -P 3 -L 1 figures/flips.py --folder "$made"
