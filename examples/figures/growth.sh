#!/usr/bin/env bash
# growth.sh [ROW ..]: how the time of a run grows with its batch. Each row (those of `named` below, or all) is a batch at a quarter of its size, at half and at its
# size, and has a line for each of the calls that run it: the milliseconds of a run at the three sizes, by user and system time less that of an empty batch, the best
# of five measurements (RUNS is another number of them); the last over the one before (2 is linear); how the work itself grows there, and by how much the time
# grows more. A measurement has so many runs that it takes 50 milliseconds at the half. The work is what runs: the attempts, by the trace of the call, or, where it
# has none, subthreads and those that are redone; of `held` it is the locks that all subthreads hold, of `copies` the cells. What the calls of a row print has to
# be the same, but for what they tell of restarts. The program has to be built; GPRS names another one.
set -eu
cd "$(dirname "$(readlink -f "${BASH_SOURCE[0]}")")"

gprs="${GPRS:-$(../../.ci/release --path gprs)}"
[ -x "$gprs" ] || exit 1
runs="${RUNS:-5}"
soak="$PWD/../soak/make.sh"
made="$(mktemp -d)"
trap 'rm -rf "$made"' EXIT

# What `main` does: so many subthreads, each pair under one lock.
work() {
    echo "  w = 0; while w < $(($1 / 2)) { lock gate[0]; unlock gate[0]; w = w + 1; }"
}

# Faults at one position: so many attempts of it in turn, each found out so many subthreads after it began.
faults_at() {
    awk -v position="$1" -v attempts="$2" -v delay="$3" 'BEGIN {
        for (attempt = 0; attempt < attempts; attempt++) printf "%d,%d,%d,%d\n", position, attempt, delay, attempt + 1
    }'
}

# So many faults, at positions that are as far apart as the batch of so many moves has room for.
faults_among() {
    awk -v faults="$1" -v moves="$2" 'BEGIN {
        for (fault = 0; fault < faults; fault++)
            printf "%d,0,%d,%d\n", int(fault * 4 * moves / faults) + 7, fault % 65, fault + 1
    }'
}

# The batch of so many moves that `gprs soak` runs, which is made once.
transfers() {
    local folder="$made/transfers.$1"
    [ -d "$folder" ] || { mkdir "$folder"; "$soak" "$1" 1 "$folder"; }
    cp "$folder"/*.csv .
    cp "$folder/soak.gp" batch.gp
}

# So many moves, with 40 faults and with 1,000.
soak() {
    transfers "$1"
    faults_among 1000 "$1" >many.csv
}

# 20,000 moves with so many faults.
faults() {
    transfers 20000
    faults_among "$1" 20000 >faults.csv
}

# 20,000 moves with so many faults at one position, which are found out at once.
place() {
    transfers 20000
    faults_at 9 "$1" 0 >faults.csv
}

# So many moves with 40 faults, for long blocks: what is redone grows with them.
blocks() {
    transfers "$1"
}

# So many subthreads of one thread, all of which depend on an early one, at which there are 200 faults.
chain() {
    { echo 'lock gate[1]; task main() { var w;'; work "$1"; echo '}'; } >batch.gp
    faults_at 3 200 64 >faults.csv
}

# 8,000 subthreads of one thread, all of which depend on an early one, at which there are so many faults.
struck() {
    { echo 'lock gate[1]; task main() { var w;'; work 8000; echo '}'; } >batch.gp
    faults_at 3 "$1" 64 >faults.csv
}

# So many subthreads of two threads that share nothing. One of them has 100 faults at its first lock: half of all is redone, and half is not.
restarts() {
    cat >batch.gp <<END
lock own[2];
record total[2] by own;
task add(n) { var w, \$x; while w < $(($1 / 4)) { lock own[n]; read total[n] into \$x; write total[n] = \$x + 1; unlock own[n]; w = w + 1; } }
task main() { fork add(0); fork add(1); }
END
    faults_at 4 100 64 >faults.csv
}

# So many threads, which meet and then have 160 subthreads each, with a lock of its own.
apart() {
    cat >batch.gp <<END
lock own[$1];
record total[$1] by own;
barrier all($1);
task add(n) { var w, \$x; barrier all; while w < 80 { lock own[n]; read total[n] into \$x; write total[n] = \$x + 1; unlock own[n]; w = w + 1; } }
task main() { var w; while w < $1 { fork add(w); w = w + 1; } }
END
}

# So many threads that end at once, and then twenty times as many subthreads of `main`.
ended() {
    {
        echo 'lock gate[1]; task end() { } task main() { var w;'
        echo "  while w < $1 { w = w + 1; fork end(); }"
        work $(($1 * 20))
        echo '}'
    } >batch.gp
}

# The same with one more thread, forked after these, that waits at a barrier for the end of `main`.
after() {
    {
        echo 'lock gate[1]; barrier last(2); task end() { } task stay() { barrier last; } task main() { var w;'
        echo "  while w < $1 { w = w + 1; fork end(); }"
        echo '  fork stay();'
        work $(($1 * 20))
        echo '  barrier last; }'
    } >batch.gp
}

# The same with such a thread before the ended ones too, so that they stand between two that live.
between() {
    {
        echo 'lock gate[1]; barrier last(3); task end() { } task stay() { barrier last; } task main() { var w;'
        echo "  fork stay(); while w < $1 { w = w + 1; fork end(); }"
        echo '  fork stay();'
        work $(($1 * 20))
        echo '  barrier last; }'
    } >batch.gp
}

# So many threads, `main` among them, that meet at a barrier.
meeting() {
    cat >batch.gp <<END
barrier all($1);
task meet() { barrier all; }
task main() { var w; while w < $(($1 - 1)) { w = w + 1; fork meet(); } barrier all; }
END
}

# So many threads that wait at a barrier while `main` begins forty times as many subthreads.
waiting() {
    {
        echo "lock gate[1]; barrier all($(($1 + 1))); task meet() { barrier all; } task main() { var w;"
        echo "  while w < $1 { w = w + 1; fork meet(); }"
        work $(($1 * 40))
        echo '  barrier all; }'
    } >batch.gp
}

# So many locks that one thread takes one after another, and gives back when it holds them all.
held() {
    awk -v locks="$1" 'BEGIN {
        printf "lock many[%d];\ntask main() {\n", locks
        for (lock = 0; lock < locks; lock++) printf "lock many[%d];\n", lock
        for (lock = 0; lock < locks; lock++) printf "unlock many[%d];\n", lock
        print "}"
    }' >batch.gp
}

# So many lock arrays of one lock, each of which is taken once.
heads() {
    awk -v heads="$1" 'BEGIN {
        for (head = 0; head < heads; head++) printf "lock a%d[1];\n", head
        print "task main() {"
        for (head = 0; head < heads; head++) printf "lock a%d[0];\nunlock a%d[0];\n", head, head
        print "}"
    }' >batch.gp
}

# So many record cells with a lock each, of which one is changed a hundred times.
copies() {
    cat >batch.gp <<END
lock guard[$1];
record account[$1] by guard;
task main() { var w, \$x; while w < 100 { lock guard[0]; read account[0] into \$x; write account[0] = \$x + 1; unlock guard[0]; w = w + 1; } }
END
}

# The least user and system time of so many runs by these words, in milliseconds; what they print stays in the file out.
least() {
    local best="" took run count="$1" each TIMEFORMAT='%3U %3S'
    shift
    : >told
    for ((run = 0; run < runs; run++)); do
        took="$({ time for ((each = 0; each < count; each++)); do "$gprs" "$@" >out 2>>told; done; } 2>&1)"
        [ ! -s told ] || { echo "$0: $PWD: $*: $(head -c 200 told)" >&2; exit 1; }
        took="$(awk -v took="$took" 'BEGIN { split(took, part, " "); printf "%d", (part[1] + part[2]) * 1000 + 0.5 }')"
        [ -n "$best" ] && [ "$best" -le "$took" ] || best=$took
    done
    echo "$best"
}

# The work of a row at a part of its size by a call: the attempts that its trace posts, where there is one, and else what the last run there printed.
work_of() {
    local name="$1"
    shift
    case "$name $1" in
        held*) echo $((size * size / (part * part))) ;;
        copies*) echo $((size / part)) ;;
        *run) "$gprs" "$@" batch.gp --subthreads 200000 --trace 2>&1 >/dev/null | awk '$1 == "post" { count++ } END { print count }' ;;
        *) awk '$1 == "subthreads" || $1 == "redone" { sum += $2 } END { print sum }' out ;;
    esac
}

# The milliseconds at each size, less those of an empty batch, the growth from half to the whole, and that of the work.
grown() {
    local empty part took=() work=() once count=1
    empty="$(least 1 "$1" "$made/empty.gp")"
    cd 2
    once=$(($(least 1 "$@" batch.gp --subthreads 200000) - empty))
    cd ..
    [ "$once" -ge 50 ] || count=$((50 / (once > 0 ? once : 1) + 1))
    empty="$(least "$count" "$1" "$made/empty.gp")"
    for part in 4 2 1; do
        cd "$part"
        took+=($(($(least "$count" "$@" batch.gp --subthreads 200000) - empty)))
        work+=("$(work_of "$name" "$@")")
        cd ..
    done
    awk -v quarter="${took[0]}" -v half="${took[1]}" -v whole="${took[2]}" -v before="${work[1]}" -v after="${work[2]}" -v count="$count" 'BEGIN {
        growth = whole / (half > 0 ? half : 1)
        more = after / (before > 0 ? before : 1)
        printf " %.1f | %.1f | %.1f | %.2f | %.2f | %.2f |\n", quarter / count, half / count, whole / count, growth, more, growth / more
    }'
}

# Tells where a run at the whole size prints something else than the first of its row, before what it tells of restarts.
compare() {
    sed '/^restarts$/,$d' 1/out >1/told
    [ -f 1/first ] || cp 1/told 1/first
    cmp -s 1/first 1/told || { echo "$0: $*: another text" >&2; exit 1; }
}

# The row of a batch of this name and size, and a line for each of the calls that run it.
row() (
    name="$1" size="$2"
    shift 2
    mkdir "$made/$name"
    cd "$made/$name"
    for part in 4 2 1; do
        mkdir "$part"
        (cd "$part" && "$name" $((size / part)))
    done
    for words in "$@"; do
        printf '| %s, %d | %s |' "$name" "$size" "$words"
        # The options are words.
        # shellcheck disable=SC2086
        grown $words
        compare "$name" "$words"
    done
)

# The row of this name: its size, and the calls that run it.
named() {
    case "$1" in
        soak) row soak 20000 one 'run --crew one' run 'run --crew one --faults faults.csv' 'run --crew one --faults many.csv' ;;
        faults) row faults 1000 'run --crew one --faults faults.csv' ;;
        place) row place 1000 'run --crew one --faults faults.csv' ;;
        chain) row chain 4000 'run --crew one --faults faults.csv' ;;
        struck) row struck 60 'run --crew one --faults faults.csv' ;;
        blocks) row blocks 20000 'ckpt --crew one --every 4096 --faults faults.csv' 'ckpt --crew one --every 100000 --faults faults.csv' ;;
        restarts) row restarts 2048 'run --crew one --faults faults.csv' ;;
        apart) row apart 512 'run --crew one' one ;;
        ended | after | between) row "$1" 4000 'run --crew one' one ;;
        meeting) row meeting 4095 'run --crew one' one ;;
        waiting) row waiting 1000 'run --crew one' one ;;
        held) row held 8000 'run --crew one' one ;;
        heads) row heads 8000 'run --crew one' one ;;
        copies) row copies 65536 'run --crew one' 'ckpt --crew one --every 1' ;;
        *) echo "$0: no row $1" >&2; exit 1 ;;
    esac
}

echo 'task main() { }' >"$made/empty.gp"
[ $# -gt 0 ] || set -- soak faults place chain struck blocks restarts apart ended after between meeting waiting held heads copies
echo '| batch, size | call | quarter | half | whole | growth | of the work | more than it |'
echo '|---|---|---|---|---|---|---|---|'
for name in "$@"; do
    named "$name"
done
