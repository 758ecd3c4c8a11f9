#!/usr/bin/env bash
# memory.sh [WORD ..]: refuses each allocation of a run in turn. It runs these words on the batch of the folder faults (where none is given: `run` by
# each crew and with a trace, `ckpt`, `log`, `resume` and `audit`), again and again, and in run N the Nth call for memory is refused, and no other. N goes from 1 on, until
# 60 runs in a row ended as if nothing were refused: all their calls for memory were made by then. Each run has to end within 20 seconds, with status 0
# and all bytes, or with status 1, its line on the error stream and a part of the output from its beginning. It prints a line for each row of words: how
# many runs there were, and how many of them ended with status 1. The program has to be built, and a C compiler be there, since an allocator is put under
# the program, which counts the calls and refuses one. The last line says how many runs broke this, and the script fails where one did.
set -u
cd "$(dirname "$(readlink -f "${BASH_SOURCE[0]}")")" || exit 1

built="$(../../.ci/release --path gprs)" || exit 1
command -v cc >/dev/null || { echo "$0: passed over, since cc is not there" >&2; exit 0; }

made="$(mktemp -d)"
trap 'rm -rf "$made"' EXIT
cp "$built" "$made/gprs"
cp ../faults/add.gp ../faults/faults.csv "$made"
head -n 5 ../faults/add.log >"$made/part.log"
cd "$made" || exit 1
broken=0

# The allocator: all calls for memory that are made once `main` is about to begin are counted, in whatever thread, and the one that REFUSED names gets
# none.
cat >refusing.c <<'END'
#include <errno.h>
#include <stdlib.h>

void *__libc_malloc(size_t);
void *__libc_calloc(size_t, size_t);
void *__libc_realloc(void *, size_t);
void *__libc_memalign(size_t, size_t);

static long refused, calls;

__attribute__((constructor)) static void begin(void) {
    const char *text = getenv("REFUSED");
    calls = 0;
    refused = text ? atol(text) : 0;
}

static int is_refused(void) {
    long call = __atomic_add_fetch(&calls, 1, __ATOMIC_SEQ_CST);
    if (refused == 0 || call != refused) return 0;
    errno = ENOMEM;
    return 1;
}

void *malloc(size_t size) { return is_refused() ? NULL : __libc_malloc(size); }
void *calloc(size_t count, size_t size) { return is_refused() ? NULL : __libc_calloc(count, size); }
void *realloc(void *old, size_t size) { return is_refused() ? NULL : __libc_realloc(old, size); }
void *memalign(size_t align, size_t size) { return is_refused() ? NULL : __libc_memalign(align, size); }
void *aligned_alloc(size_t align, size_t size) { return memalign(align, size); }

int posix_memalign(void **into, size_t align, size_t size) {
    void *found = memalign(align, size);
    if (!found) return ENOMEM;
    *into = found;
    return 0;
}
END
cc -shared -fPIC -O1 -o refusing.so refusing.c || { echo "$0: the allocator can't be compiled" >&2; exit 1; }

# Runs the words over the allocator, with the call of this number refused (none at 0), and answers the status.
refusing() {
    local number="$1"
    shift
    timeout 20 env LD_PRELOAD="$made/refusing.so" REFUSED="$number" ./gprs "$@" >out 2>err
}

# Tells of a run that did not end as it has to.
breaks() {
    broken=$((broken + 1))
    echo "BROKEN: $1: $(head -c 200 err)" >&2
}

# Whether the first file is a part of the second from its beginning.
is_prefix() {
    [ "$(wc -c <"$1")" -le "$(wc -c <"$2")" ] && cmp -s -n "$(wc -c <"$1")" "$1" "$2"
}

# Whether all bytes were written.
is_whole() {
    cmp -s out whole.out && cmp -s err whole.err
}

# Whether a part of the output was written, and the line of no memory; where the words keep a log, a part of that may stand in its place.
is_part() {
    is_prefix out whole.out || return 1
    [ "$(cat err)" = 'gprs: out of memory' ] || { [ "$1" = log ] && is_prefix err whole.err; }
}

# Refuses each call for memory of a run by these words in turn.
each() {
    local number=0 row=0 refused=0 status
    refusing 0 "$@" || breaks "$* ends with an error where nothing is refused"
    mv out whole.out
    mv err whole.err
    while [ "$row" -lt 60 ]; do
        number=$((number + 1))
        refusing "$number" "$@"
        status=$?
        row=$((row + 1))
        case "$status" in
            0) is_whole || breaks "$*, call $number: status 0 and other bytes" ;;
            1) is_part "$1" || breaks "$*, call $number: status 1 and no part of the output, or another line" ;;
            124) breaks "$*, call $number: no end within 20 seconds" ;;
            *) breaks "$*, call $number: status $status" ;;
        esac
        [ "$status" -eq 0 ] || row=0
        [ "$status" -ne 1 ] || refused=$((refused + 1))
        [ "$broken" -lt 10 ] || return
    done
    [ "$refused" -gt 0 ] || breaks "$*: no run was refused memory: the allocator is not under the program"
    printf '%-55s %4d runs %4d with status 1\n' "$*" "$number" "$refused"
}

if [ $# -gt 0 ]; then
    each "$@"
else
    ./gprs run add.gp --faults faults.csv --trace >whole.out 2>trace.txt || breaks "the trace can't be made"
    for crew in one wave board steal pipe; do each run add.gp --faults faults.csv --crew "$crew" --workers 4; done
    each run add.gp --faults faults.csv --crew one --trace
    each ckpt add.gp --faults faults.csv --every 4
    each log add.gp --faults faults.csv
    each resume add.gp part.log
    each audit add.gp trace.txt --faults faults.csv
fi
echo "$broken runs broke"
[ "$broken" -eq 0 ]
