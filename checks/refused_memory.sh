#!/usr/bin/env bash
# Refuses the proved program memory: each of its allocations fails in one run, the first, the second and so on.
# A run must end with status 0 (Ok) and the whole text, or with 11 (Memory) and a prefix of it.
# Over the stored run of crates/sigserve. Wants cc, for a malloc and a realloc that count and refuse.
. "$(dirname "$0")/../bench/program.sh"

cat >"$work/refuse.c" <<'C'
#define _GNU_SOURCE
#include <dlfcn.h>
#include <stdio.h>
#include <stdlib.h>

static long count = 0;

/* Whether this allocation is the one that REFUSED names. */
static int refused(void) {
  static long which = -1;
  if (which < 0) {
    const char *text = getenv("REFUSED");
    which = text ? atol(text) : 0;
  }
  return ++count == which;
}

void *malloc(size_t size) {
  static void *(*real)(size_t);
  if (!real) real = (void *(*)(size_t))dlsym(RTLD_NEXT, "malloc");
  return refused() ? NULL : real(size);
}

void *realloc(void *old, size_t size) {
  static void *(*real)(void *, size_t);
  if (!real) real = (void *(*)(void *, size_t))dlsym(RTLD_NEXT, "realloc");
  return refused() ? NULL : real(old, size);
}

/* Leaves the number of allocations in the file COUNTED. */
__attribute__((destructor)) static void tell(void) {
  const char *name = getenv("COUNTED");
  long allocations = count;
  FILE *file = name ? fopen(name, "w") : NULL;
  if (file) {
    fprintf(file, "%ld\n", allocations);
    fclose(file);
  }
}
C
cc -O1 -shared -fPIC -o "$work/refuse.so" "$work/refuse.c" -ldl

cd "$top/crates/sigserve/data"
run() {
  status=0
  REFUSED="$1" LD_PRELOAD="$work/refuse.so" "$program" decode bench.txt >"$work/out" 2>"$work/err" || status=$?
}

export COUNTED="$work/count"
run 0
[ "$status" -eq 0 ] && cmp -s "$work/out" ../stdout || { echo "the stored run does not hold"; exit 1; }
allocations="$(cat "$work/count")"
unset COUNTED

wrong=0
whole=0
for n in $(seq 1 "$allocations"); do
  run "$n"
  size="$(stat -c %s "$work/out")"
  if [ "$status" -eq 0 ] && cmp -s "$work/out" ../stdout; then
    whole=$((whole + 1))
  elif [ "$status" -ne 11 ] || ! cmp -s -n "$size" "$work/out" ../stdout; then
    echo "allocation $n refused: status $status, $(head -n 1 "$work/err")"
    wrong=$((wrong + 1))
  fi
done
echo "$allocations allocations refused, one a run: $whole runs ended with Ok and the whole text, $wrong neither so nor with Memory"
[ "$wrong" -eq 0 ]
