#!/usr/bin/env bash
# limits.sh [CREW ..]: makes batches as large as the limits allow, and half as large, and runs each by these crews (one, wave, board and
# steal where none is named; one that the program does not know is left out). It prints a line for each run: the batch, its size, the crew,
# seconds, and the peak of the memory in megabytes. Each run has to end with the bytes of that by the crew `one`, also in a stack of 1 MiB, and
# where no thread can be started. The program has to be built. The last line says how many runs differed, and the script fails where one did.
set -eu
cd "$(dirname "$(readlink -f "${BASH_SOURCE[0]}")")"

built="$(../../.ci/release --path gprs)" || exit 1
if [ $# -gt 0 ]; then crews=("$@"); else crews=(one wave board steal); fi

made="$(mktemp -d)"
trap 'rm -rf "$made"' EXIT
# Another user runs the program from here too.
umask 022
chmod 755 "$made"
cp "$built" "$made/gprs"
gprs="$made/gprs"
cd "$made"
differed=0

# So many subthreads, an even number, over 65,536 records, each under a lock of its own. 64 threads and `main` begin 194 with a settle; the
# others lock and unlock.
subthreads() {
    local pairs=$((($1 - 194) / 2))
    cat <<END
lock guard[65536];
record account[65536] by guard;
task deposit(first) {
  var i, cell;
  i = first;
  while i < first + $((pairs / 64)) {
    cell = i % 65536;
    lock guard[cell];
    read account[cell] into \$ret;
    write account[cell] = \$ret + 1;
    unlock guard[cell];
    i = i + 1;
  }
}
task main() {
  var w, \$none;
  settle \$none into w;
  while w < 64 { fork deposit(w * $((pairs / 64))); w = w + 1; }
  w = 0;
  while w < $((pairs % 64)) { lock guard[w]; write account[w] = w; unlock guard[w]; w = w + 1; }
  w = 0;
  while w < 64 { w = w + 1; join w; }
}
END
}

# So many faults, each on the first attempt of a position, so many positions after the one before, and found out up to 64 subthreads later.
faults() {
    local fault
    for ((fault = 0; fault < $1; fault++)); do
        echo "$((fault * $2 + 7)),0,$((fault % 65)),$((fault + 1))"
    done
}

# So many threads, `main` among them, which meet at one barrier.
barrier() {
    cat <<END
barrier meeting($1);
task meet() { barrier meeting; \$ret = self; }
task main() {
  var w, \$part, \$total;
  while w < $(($1 - 1)) { w = w + 1; fork meet(); }
  barrier meeting;
  w = 0;
  while w < $(($1 - 1)) { w = w + 1; join w into \$part; \$total = \$total + \$part; }
  print \$total;
}
END
}

# A feed of so many cells in rows of four, which eight threads share.
feed() {
    awk -v rows="$(($1 / 4))" 'BEGIN { for (row = 0; row < rows; row++) printf "%d,%d,%d,1\n", row, 7 * row, row - 5 }' >cells.csv
    cat <<'END'
feed cells[4] from "cells.csv";
task sum(first) {
  var i;
  i = first;
  while i < rows(cells) { $ret = $ret + cells[i, 1] + cells[i, 2] * cells[i, 3]; i = i + 8; }
}
task main() {
  var w, $part, $total;
  while w < 8 { fork sum(w); w = w + 1; }
  w = 0;
  while w < 8 { w = w + 1; join w into $part; $total = $total + $part; }
  print $total;
}
END
}

# A program of so many bytes: one statement again and again, and spaces after the last brace.
text() {
    awk -v size="$1" 'BEGIN {
        head = "task main() { var $x;\n"; line = "$x = $x * 3 + 1;\n"; tail = "print $x; }\n"
        count = int((size - length(head) - length(tail)) / length(line))
        printf "%s", head
        for (i = 0; i < count; i++) printf "%s", line
        printf "%s", tail
        for (i = length(head) + count * length(line) + length(tail); i < size; i++) printf " "
    }'
}

# Runs words, and prints how many seconds they took and their peak of memory in megabytes; the output goes to the file.
measured() {
    local into="$1"
    shift
    if [ -x /usr/bin/time ]; then
        /usr/bin/time -q -f '%e %M' -o measured "$@" >"$into" 2>told || true
        awk '{ printf "%6.2f s %7.1f MB", $1, $2 / 1024 }' measured
    else
        python3 - "$into" "$@" <<'END'
import resource, subprocess, sys, time
begun = time.monotonic()
with open(sys.argv[1], "wb") as into, open("told", "wb") as told:
    subprocess.run(sys.argv[2:], stdout=into, stderr=told)
print(f"{time.monotonic() - begun:6.2f} s {resource.getrusage(resource.RUSAGE_CHILDREN).ru_maxrss / 1024:7.1f} MB", end="")
END
    fi
}

# Tells where a run's output is another one than that of the crew `one`, or there is a line on the error stream.
compare() {
    if cmp -s "$1" one.out && [ ! -s told ]; then
        echo
    else
        differed=$((differed + 1))
        echo "  DIFFERS: $(head -c 200 told)"
    fi
}

# Runs words where no thread can be started: by a user who may have one process, since nothing keeps the superuser from more.
without_threads() {
    if [ "$(id -u)" -eq 0 ]; then
        setpriv --reuid=65534 --regid=65534 --clear-groups prlimit --nproc=1 "$@"
    else
        prlimit --nproc=1 "$@"
    fi
}

# The batch of a name and its words, by each crew, and at the full size also within the narrow limits.
rows() {
    local name="$1" size="$2" crew
    shift 2
    if ! "$gprs" "$@" --crew one >one.out 2>told; then
        differed=$((differed + 1))
        echo "$name $size: the crew one did not finish: $(head -c 200 told)"
        return
    fi
    for crew in "${crews[@]}"; do
        "$gprs" run empty.gp --crew "$crew" >known 2>&1 || continue
        printf '%-12s %-5s %-6s' "$name" "$size" "$crew"
        measured crew.out "$gprs" "$@" --crew "$crew" --workers 4
        compare crew.out
        [ "$size" = full ] || continue
        printf '%-12s %-5s %-6s' "$name" stack "$crew"
        measured crew.out bash -c 'ulimit -s 1024; exec "$@"' bash "$gprs" "$@" --crew "$crew" --workers 64
        compare crew.out
        [ "$crew" != one ] || continue
        printf '%-12s %-5s %-6s  no thread is started' "$name" alone "$crew"
        without_threads "$gprs" "$@" --crew "$crew" --workers 64 >crew.out 2>told || true
        compare crew.out
    done
}

echo 'task main() { }' >empty.gp
if without_threads timeout 5 true 2>told; then
    echo "$0: another process is started although one is allowed: the rows 'alone' show nothing" >&2
fi

for size in half full; do
    if [ "$size" = half ]; then part=2; else part=1; fi
    subthreads $((200000 / part)) >subthreads.gp
    faults $((1000 / part)) 190 >faults.csv
    barrier $((4096 / part)) >barrier.gp
    feed $((1000000 / part)) >feed.gp
    text $((1048576 / part)) >text.gp
    rows subthreads "$size" run subthreads.gp --subthreads 200000
    rows faults "$size" run subthreads.gp --subthreads 200000 --faults faults.csv
    rows barrier "$size" run barrier.gp
    rows feed "$size" run feed.gp
    rows text "$size" run text.gp
done
echo "$differed runs differed"
[ "$differed" -eq 0 ]
