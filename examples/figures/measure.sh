#!/usr/bin/env bash
# measure.sh [BUSY [CREW]]: how many milliseconds `gprs` takes for batches of light and of heavy subthreads, on one thread and by the
# workers of a crew (wave where it is left out): the best of three runs. BUSY, 0 where it is left out, is how many processes that only
# count stand beside it. The program has to be built.
set -eu
cd "$(dirname "$(readlink -f "${BASH_SOURCE[0]}")")/.."

busy="${1:-0}"
crew="${2:-wave}"
gprs="$(../.ci/release --path gprs)" || exit 1

made="$(mktemp -d)"
counting=()
finish() {
    [ ${#counting[@]} -eq 0 ] || kill "${counting[@]}"
    rm -rf "$made"
}
trap finish EXIT
for ((process = 0; process < busy; process++)); do
    while :; do :; done &
    counting+=($!)
done

# The milliseconds of the best of three runs of these words.
best() {
    local least="" begun took
    for _ in 1 2 3; do
        begun="${EPOCHREALTIME/./}"
        "$gprs" "$@" >"$made/out"
        took=$((${EPOCHREALTIME/./} - begun))
        [ -n "$least" ] && [ "$least" -le "$took" ] || least=$took
    done
    printf '%d.%d' $((least / 1000)) $((least % 1000 / 100))
}

# The row of a batch: its name, the folder in which its files lie, and the words that run it.
row() (
    cd "$2"
    name="$1"
    shift 2
    printf '| %s |' "$name"
    printf ' %s |' "$(best "$@" --crew one)"
    for workers in 1 2 4 64; do
        printf ' %s |' "$(best "$@" --crew "$crew" --workers "$workers")"
    done
    echo
)

# The batch of soak as files, and the simulation with ten times its turns.
soak/make.sh 20000 1 "$made"
sed 's/500000/5000000/' simulation.gp >"$made/long.gp"

echo "| batch | --crew one | $crew, 1 worker | 2 | 4 | 64 |"
echo '|---|---|---|---|---|---|'
row "soak 20000 1" . soak 20000 1
row "its files, without faults" "$made" run soak.gp
row simulation . run simulation.gp
row "simulation, 5,000,000 turns" "$made" run long.gp --turns 5000000
row threads . run figures/threads.gp
row loop . run figures/loop.gp --subthreads 200000
row barrier . run figures/barrier.gp
row uneven . run figures/uneven.gp
