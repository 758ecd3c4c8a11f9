#!/usr/bin/env bash
# resume.sh: what going on from a log takes beside a whole run: time in milliseconds by the clock, the best of three runs. The first batch is
# simulation.gp with ten times the draws, from the rows before the first heavy subthread; the second that of `soak 20000 1`, from half of its log.
# The program has to be built.
set -eu
cd "$(dirname "$(readlink -f "${BASH_SOURCE[0]}")")/.."

gprs="$(../.ci/release --path gprs)" || exit 1
made="$(mktemp -d)"
trap 'rm -rf "$made"' EXIT

# The least time of three runs by these words, in milliseconds; the output stays in the file out.
least() {
    local best="" begun took
    for _ in 1 2 3; do
        begun="${EPOCHREALTIME/./}"
        "$gprs" "$@" >out
        took=$((${EPOCHREALTIME/./} - begun))
        [ -n "$best" ] && [ "$best" -le "$took" ] || best=$took
    done
    echo $((best / 1000))
}

# The row of a batch: its name, its program, the rows of the log to go on from, and options.
row() {
    local name="$1" program="$2" rows="$3" one run took
    shift 3
    "$gprs" log "$program" "$@" >whole.txt 2>run.log
    head -n "$rows" run.log >part.log
    one=$(least run "$program" --crew one "$@")
    run=$(least run "$program" "$@")
    took=$(least resume "$program" part.log "$@")
    tail -c "$(wc -c <out)" whole.txt | sed '/^restarts$/,$d' | cmp - <(sed '/^restarts$/,$d' out) || echo "$name: another text" >&2
    printf '| %s | %d | %d | %d | %d |\n' "$name" "$rows" "$one" "$run" "$took"
}

sed 's/500000/5000000/' simulation.gp >"$made/heavy.gp"
soak/make.sh 20000 1 "$made"
cd "$made"
echo '| batch | rows | run --crew one | run | resume |'
echo '|---|---|---|---|---|'
# The threads of the first batch are heavy from the barrier on, at which the last of them arrives after 17 subthreads.
row "simulation.gp, ten times the draws" heavy.gp 17 --turns 10000000
row "soak 20000 1" soak.gp 40012
