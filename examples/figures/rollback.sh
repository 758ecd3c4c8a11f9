#!/usr/bin/env bash
# rollback.sh [CREW]: what a fault costs by selective restarts and by rollbacks to copies: time in milliseconds, the best of three runs, restarts
# and subthreads that were redone, for the batch of `soak 20000 1` with its 40 faults, and with 1,000 faults. CREW is one where it is left out.
# The program has to be built.
set -eu
cd "$(dirname "$(readlink -f "${BASH_SOURCE[0]}")")/.."

crew="${1:-one}"
gprs="$(../.ci/release --path gprs)" || exit 1
made="$(mktemp -d)"
trap 'rm -rf "$made"' EXIT

# The row of a run: its name, and the words that make it.
row() {
    local name="$1" least="" begun took
    shift
    for _ in 1 2 3; do
        begun="${EPOCHREALTIME/./}"
        "$gprs" "$@" --crew "$crew" >"$made/out"
        took=$((${EPOCHREALTIME/./} - begun))
        [ -n "$least" ] && [ "$least" -le "$took" ] || least=$took
    done
    awk -v name="$name" -v took=$((least / 1000)) '
        /^restarts [0-9]/ { restarts = $2 }
        /^redone / { redone = $2 }
        END { printf "| %s | %d | %d | %d |\n", name, took, restarts, redone }' "$made/out"
}

soak/make.sh 20000 1 "$made"
for ((fault = 0; fault < 1000; fault++)); do
    echo "$((fault * 80 + 7)),0,$((fault % 65)),$((fault + 1))"
done >"$made/many.csv"

cd "$made"
echo "| run by --crew $crew | ms | restarts | redone |"
echo '|---|---|---|---|'
row "run, no fault" run soak.gp
for faults in faults many; do
    row "run, $(wc -l <"$faults.csv") faults" run soak.gp --faults "$faults.csv"
    for every in 16 64 1024; do
        row "ckpt --every $every" ckpt soak.gp --faults "$faults.csv" --every "$every"
    done
done
