#!/usr/bin/env bash
# Refuses memory in turn: memory.sh [from]. The program runs a query of each kind, once for each request for memory that the query
# makes, and that one request is refused; with the word `from`, each one behind it as well. Each such run must end with status 7,
# nothing or the whole answer on out, and nothing or the line `memory` on err; or with the answer and the counts as if all
# were given. It writes a line for each query: how many requests it makes, and how the runs ended. The status is 0 where each
# run ended so. It needs a C compiler for the library that refuses, which it loads before the C library.
set -u
top=$(cd "$(dirname "${BASH_SOURCE[0]}")/.." && pwd)
program=$top/crates/cheetah_main/out/cheetah_main
command -v cc >/dev/null || { echo 'memory.sh: install a C compiler first' >&2; exit 2; }
"$top/build.sh" cheetah_main --query 'SELECT a FROM t' "t=$top/examples/filter/t.csv" >/dev/null || exit 2
folder=$(mktemp -d)
trap 'rm -rf "$folder"' EXIT
cat >"$folder/refuse.c" <<'END'
#include <fcntl.h>
#include <stdio.h>
#include <stdlib.h>
#include <unistd.h>
extern void *__libc_malloc(size_t);
extern void *__libc_realloc(void *, size_t);
static unsigned long calls, first, last;
static int refuses(void) { calls++; return first <= calls && calls <= last; }
void *malloc(size_t size) { return refuses() ? NULL : __libc_malloc(size); }
void *realloc(void *old, size_t size) { return refuses() ? NULL : __libc_realloc(old, size); }
__attribute__((constructor)) static void begin(void) {
  const char *number = getenv("REFUSE");
  calls = 0;
  first = number ? strtoul(number, NULL, 10) : 0;
  last = getenv("REFUSE_FROM") ? (unsigned long)-1 : first;
  if (!first) { first = 1; last = 0; }
}
__attribute__((destructor)) static void end(void) {
  char text[32];
  const char *name = getenv("REFUSE_COUNT");
  int size = snprintf(text, sizeof text, "%lu\n", calls);
  int file = name ? open(name, O_WRONLY | O_CREAT | O_TRUNC, 0600) : -1;
  if (file >= 0 && write(file, text, size) == size) close(file);
}
END
cc -O2 -shared -fPIC -o "$folder/refuse.so" "$folder/refuse.c" || exit 2
[ "${1:-}" = from ] && export REFUSE_FROM=1
export REFUSE_COUNT=$folder/count
printf 'memory\n' >"$folder/memory"
: >"$folder/nothing"
failed=0

# run OUT ERR WORD ..: runs the program under the library
run() {
  local out=$1 err=$2
  shift 2
  LD_PRELOAD=$folder/refuse.so "$program" "$@" >"$out" 2>"$err"
}

# sweep NAME WORD ..: each request of the command in turn
sweep() {
  local name=$1 status n count seven=0 whole=0 wrong=0
  shift
  REFUSE=0 run "$folder/right" "$folder/counts" "$@" || { echo "$name: fails with all memory" >&2; failed=1; return; }
  count=$(cat "$folder/count")
  for ((n = 1; n <= count; n++)); do
    REFUSE=$n run "$folder/out" "$folder/err" "$@"
    status=$?
    if [ "$status" -eq 7 ] && { cmp -s "$folder/out" "$folder/nothing" || cmp -s "$folder/out" "$folder/right"; } \
      && { cmp -s "$folder/err" "$folder/nothing" || cmp -s "$folder/err" "$folder/memory"; }; then
      seven=$((seven + 1))
    elif [ "$status" -eq 0 ] && cmp -s "$folder/out" "$folder/right" && cmp -s "$folder/err" "$folder/counts"; then
      whole=$((whole + 1))
    else
      echo "$name: request $n ends with status $status" >&2
      wrong=$((wrong + 1))
      failed=1
    fi
  done
  echo "$name: $count requests, status 7 $seven times, the answer $whole times, anything else $wrong times"
}

cd "$top/examples/filter"
sweep 'filter' --query 'SELECT a FROM t WHERE a > 4' t=t.csv
cd "$top/examples/sales"
tables=(sales=sales-0.csv sales=sales-1.csv sales=sales-2.csv customers=customers.csv)
sweep 'filter with texts' --query "SELECT order_id, cents FROM sales WHERE country <> 'ES' AND cents >= 1200" "${tables[@]}"
sweep 'DISTINCT' --query 'SELECT DISTINCT country FROM sales' "${tables[@]}"
sweep 'ORDER BY' --query 'SELECT order_id, cents FROM sales ORDER BY cents DESC LIMIT 2' "${tables[@]}"
sweep 'GROUP BY' --query 'SELECT customer, MAX(time) FROM sales GROUP BY customer' "${tables[@]}"
sweep 'HAVING' --query 'SELECT customer FROM sales GROUP BY customer HAVING SUM(cents) > 3000' "${tables[@]}"
sweep 'JOIN' --query 'SELECT city, order_id FROM sales JOIN customers ON sales.customer = customers.customer WHERE cents < 2000' "${tables[@]}"
sweep 'SKYLINE OF' --query 'SELECT order_id, cents, time FROM sales SKYLINE OF cents MAX, time MIN' "${tables[@]}"
sweep 'semi-join' --query 'SELECT order_id FROM sales WHERE customer IN (SELECT customer FROM customers)' "${tables[@]}"
exit "$failed"
