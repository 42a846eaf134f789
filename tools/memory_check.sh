#!/usr/bin/env bash
# Refuses each request for memory of a command in turn, in the built program. Each run has to end with 5 and an empty output, or
# just as without the refusal. It needs a C compiler, and a program that takes its memory from the C library.
#
#   tools/memory_check.sh [PROGRAM]
#
# A line a command tells how many requests it makes and how many of the runs ended with 5. The last line is 'N passed, M
# failed'; the status is 1 where one failed or there was none.
set -u
unset CDPATH
cd "$(dirname "$0")/.." || exit 1
program=$(readlink -f "${1:-crates/stepmill/out/stepmill}")
data=$PWD/crates/stepmill/data
if [ ! -x "$program" ]; then
  echo "memory_check.sh: $program is missing" >&2
  exit 1
fi
if ! command -v cc > /dev/null; then
  echo "memory_check.sh: skipped, cc is missing"
  exit 0
fi
room=$(mktemp -d) || exit 1
trap 'rm -rf "$room"' EXIT
cat > "$room/refuse.c" << 'END'
#include <errno.h>
#include <fcntl.h>
#include <stddef.h>
#include <stdlib.h>
#include <unistd.h>

void *__libc_malloc(size_t);
void *__libc_calloc(size_t, size_t);
void *__libc_realloc(void *, size_t);
void *__libc_memalign(size_t, size_t);

static long left = -1;

__attribute__((constructor)) static void begin(void) {
    const char *at = getenv("REFUSE_AT");
    if (at)
        left = atol(at);
}

static int is_refused(void) {
    if (left <= 0 || --left > 0)
        return 0;
    close(open(getenv("REFUSED"), O_CREAT | O_WRONLY, 0600));
    errno = ENOMEM;
    return 1;
}

void *malloc(size_t n) { return is_refused() ? NULL : __libc_malloc(n); }
void *calloc(size_t n, size_t m) { return is_refused() ? NULL : __libc_calloc(n, m); }
void *realloc(void *p, size_t n) { return is_refused() ? NULL : __libc_realloc(p, n); }
void *memalign(size_t a, size_t n) { return is_refused() ? NULL : __libc_memalign(a, n); }
void *aligned_alloc(size_t a, size_t n) { return memalign(a, n); }
int posix_memalign(void **p, size_t a, size_t n) {
    void *q = memalign(a, n);
    if (!q)
        return ENOMEM;
    *p = q;
    return 0;
}
END
cc -shared -fPIC -O1 -o "$room/refuse.so" "$room/refuse.c" || exit 1
passed=0
failed=0

# Runs a command once for each of its requests.
check() {
  local status wanted at=0 wanting=0
  "$program" "$@" > "$room/wanted" 2> /dev/null < /dev/null
  wanted=$?
  while :; do
    at=$((at + 1))
    rm -f "$room/refused"
    REFUSE_AT=$at REFUSED=$room/refused LD_PRELOAD=$room/refuse.so "$program" "$@" > "$room/out" 2> "$room/err" < /dev/null
    status=$?
    [ -e "$room/refused" ] || break
    if [ "$status" -eq 5 ] && [ ! -s "$room/out" ] && { [ ! -s "$room/err" ] || [ "$(cat "$room/err")" == "stepmill: memory" ]; }; then
      wanting=$((wanting + 1))
      passed=$((passed + 1))
    elif [ "$status" -eq "$wanted" ] && cmp -s "$room/out" "$room/wanted"; then
      passed=$((passed + 1))
    else
      failed=$((failed + 1))
      echo "FAILED: request $at of: $*: status $status"
    fi
  done
  echo "$((at - 1)) requests, $wanting ended with 5: $*"
}

cd "$data" || exit 1
"$program" compile one.stp --cell 1000 > "$room/one.ngc"
sed '12s/G1/G0/' "$room/one.ngc" > "$room/rapid.ngc"
check compile one.stp --cell 1000
check verify one.stp "$room/one.ngc" --cell 1000
check verify one.stp "$room/rapid.ngc" --cell 1000
check report plate.stp --raw 0,0,0,100,60,22 --cell 1000
check compile plate.stp --raw 0,0,0,100,60,22
check make 0
echo "$passed passed, $failed failed"
[ "$failed" -eq 0 ] && [ "$passed" -gt 0 ]
