#!/usr/bin/env bash
# audit.sh: how many milliseconds `gprs audit` takes for traces: that of a batch of transfers, a long one that faults strike, and one of many
# subthreads none of which retires. Each is the best of three runs. The program has to be built.
set -eu
cd "$(dirname "$(readlink -f "${BASH_SOURCE[0]}")")/.."

gprs="$(../.ci/release --path gprs)" || exit 1

made="$(mktemp -d)"
trap 'rm -rf "$made"' EXIT

# The milliseconds of the best of three audits with these words. A trace that is not lawful ends with another status than 0.
best() {
    local least="" begun took
    for _ in 1 2 3; do
        begun="${EPOCHREALTIME/./}"
        "$gprs" audit "$@" >verdict || true
        took=$((${EPOCHREALTIME/./} - begun))
        [ -n "$least" ] && [ "$least" -le "$took" ] || least=$took
    done
    printf '%d.%d' $((least / 1000)) $((least % 1000 / 100))
}

# The row of a trace: its name, and the words of its audit, of which the second is its file.
row() {
    local name="$1" took
    shift
    took="$(best "$@")"
    printf '| %s | %s | %s | %s | %s |\n' "$name" "$(wc -l <"$2")" "$(wc -c <"$2")" "$(cat verdict)" "$took"
}

# A batch of transfers with its 40 faults.
soak/make.sh 2000 1 "$made"
cd "$made"
"$gprs" run soak.gp --faults faults.csv --trace >/dev/null 2>soak.txt

# One thread takes and gives back one lock, so that all its subthreads depend on each other. The faults strike one position again and
# again, each at the end of its window: a restart redoes 64 subthreads more than the one before it.
cat >chain.gp <<'PROGRAM'
lock one[1];
record sum[1] by one;
task main() {
  var i, $s;
  while i < 99999 {
    lock one[0];
    read sum[0] into $s;
    write sum[0] = $s + i;
    unlock one[0];
    i = i + 1;
  }
}
PROGRAM
awk 'BEGIN { for (attempt = 0; attempt < 115; attempt++) print "1000," attempt ",64,1" }' >again.csv
"$gprs" run chain.gp --faults again.csv --subthreads 200000 --trace >/dev/null 2>chain.txt

# All subthreads of that batch are issued and run, and none retires.
awk 'BEGIN { for (p = 0; p < 199999; p++) printf "issue %d\npost %d 0\ntake %d 0 applied\n", p, p, p }' >waiting.txt

echo '| trace | rows | bytes | verdict | milliseconds |'
echo '|---|---|---|---|---|'
row "a batch of 2,000 transfers, 40 faults" soak.gp soak.txt --faults faults.csv
row "one lock, 115 faults at one place" chain.gp chain.txt --faults again.csv --subthreads 200000
row "199,999 subthreads, none of which retires" chain.gp waiting.txt --subthreads 200000
