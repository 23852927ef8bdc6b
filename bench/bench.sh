#!/usr/bin/env bash
# Measures `cheetah` beside `sqlite3`, for a query of each kind: bench.sh [ROWS [SEED]], 1000000 rows and seed 1 where none is given.
# It makes a table `k,v,b` of so many rows in four parts, one of a quarter of them, and for the skyline two of a tenth of
# each, with a table `k,y` of 100 rows; asks both programs the same of the same files; and compares the answers. A line has the
# processor time of both in seconds, user and system, what a row costs cheetah, how many times a quarter's time that is, and
# the peak memory in megabytes. Without sqlite3, which is Debian's package, it measures cheetah alone and says so. A program that is
# built already is measured by CHEETAH=FILE.
set -eu
rows=${1:-1000000}
seed=${2:-1}
top=$(cd "$(dirname "${BASH_SOURCE[0]}")/.." && pwd)
program=${CHEETAH:-$top/crates/cheetah_main/out/cheetah_main}
[ -x /usr/bin/time ] || { echo 'bench.sh: install time first' >&2; exit 2; }
beside=yes
command -v sqlite3 >/dev/null || { echo 'bench.sh: there is no sqlite3, so cheetah is measured alone' >&2; beside=no; }
[ -n "${CHEETAH:-}" ] || "$top/build.sh" cheetah_main --query 'SELECT a FROM t' "t=$top/examples/filter/t.csv"
folder=$(mktemp -d)
trap 'rm -rf "$folder"' EXIT
cd "$folder"

# make ROWS FOLDER: four parts, the row r in part r mod 4, and the other table
make() {
  mkdir "$2"
  awk -v rows="$1" -v seed="$seed" -v folder="$2" 'BEGIN {
    srand(seed)
    for (p = 0; p < 4; p++) print "k,v,b" > (folder "/" p)
    for (r = 0; r < rows; r++) print int(rand() * 1000) "," int(rand() * 1000000) "," int(rand() * 1000000) > (folder "/" r % 4)
    print "k,y" > (folder "/u")
    for (r = 0; r < 100; r++) print int(rand() * 1000) "," int(rand() * 1000000) > (folder "/u")
  }'
}

# measure WORD ..: processor seconds and kilobytes in the file `measured`
measure() {
  /usr/bin/time -q -f '%U %S %M' -o taken "$@" >answer 2>said
  awk '{ print $1 + $2, $3 }' taken >measured
}

# compare SQL QUERY: asks sqlite3 the same, and adds what it took to the line
compare() {
  mv answer ours
  {
    echo '.mode csv'
    echo '.separator , "\n"'
    echo 'CREATE TABLE t (k INTEGER, v INTEGER, b INTEGER);'
    echo 'CREATE TABLE u (k INTEGER, y INTEGER);'
    for p in 0 1 2 3; do echo ".import --skip 1 $parts/$p t"; done
    echo ".import --skip 1 $parts/u u"
    echo '.headers on'
    echo "$1;"
  } >script
  measure sqlite3 :memory: '.read script'
  cmp -s ours answer || { echo "bench.sh: the answers to '$2' differ" >&2; exit 1; }
}

# ask NAME QUERY SQL: the query, and what it is for sqlite3, with the order that an answer has by itself. HALF stands for the sum
# that half of the keys exceed.
ask() {
  local name=$1 query sql before=- count ours theirs='- -'
  for parts in "${folders[@]}"; do
    count=$(($(cat "$parts"/[0-3] | wc -l) - 4))
    query=${2//HALF/$((count * 500))}
    sql=${3//HALF/$((count * 500))}
    measure "$program" --query "$query" "t=$parts/0" "t=$parts/1" "t=$parts/2" "t=$parts/3" "u=$parts/u"
    ours=$(cat measured)
    if [ $beside = yes ]; then
      compare "$sql" "$query"
      theirs=$(cat measured)
    fi
    echo "$count $before $ours $theirs" | awk -v name="$name" '{
      row = $3 * 1e6 / $1
      growth = $2 == "-" ? "-" : $2 > 0 ? sprintf("%.1f", $3 / $2) : "-"
      ratio = $5 == "-" ? "-" : $5 > 0 ? sprintf("%.2f", $3 / $5) : "-"
      theirs = $5 == "-" ? "-" : sprintf("%.2f", $5)
      memory = $6 == "-" ? "-" : sprintf("%.0f", $6 / 1024)
      printf "| %s | %d | %.2f | %.2f | %s | %.0f | %s | %s | %s |\n", name, $1, $3, row, growth, $4 / 1024, theirs, memory, ratio }'
    before=${ours% *}
  done
}

make "$rows" whole
make $((rows / 4)) quarter
make $((rows / 10)) few
make $((rows / 40)) fewest
echo "$rows rows are $(cat whole/[0-3] | wc -c) bytes"
echo
echo '| Query | rows | s | µs a row | times a quarter | MB | sqlite3 s | MB | cheetah to sqlite3 |'
echo '|---|---|---|---|---|---|---|---|---|'
folders=(quarter whole)
ask 'filter that keeps few' 'SELECT k, v FROM t WHERE v < 1000' 'SELECT k, v FROM t WHERE v < 1000 ORDER BY k, v'
ask 'filter that keeps all' 'SELECT k, v, b FROM t' 'SELECT k, v, b FROM t ORDER BY k, v, b'
ask 'DISTINCT' 'SELECT DISTINCT k FROM t' 'SELECT DISTINCT k FROM t ORDER BY k'
ask 'ORDER BY' 'SELECT k, v FROM t ORDER BY v DESC LIMIT 10' 'SELECT k, v FROM t ORDER BY v DESC, k LIMIT 10'
ask 'GROUP BY' 'SELECT k, MAX(v) FROM t GROUP BY k' 'SELECT k, MAX(v) AS "MAX(v)" FROM t GROUP BY k ORDER BY k'
ask 'HAVING' 'SELECT k FROM t GROUP BY k HAVING SUM(v) > HALF' 'SELECT k FROM t GROUP BY k HAVING SUM(v) > HALF ORDER BY k'
ask 'JOIN' 'SELECT v, y FROM t JOIN u ON t.k = u.k' 'SELECT v, y FROM t JOIN u ON t.k = u.k ORDER BY v, y'
ask 'semi-join' 'SELECT v, b FROM t WHERE k IN (SELECT k FROM u)' 'SELECT v, b FROM t WHERE k IN (SELECT k FROM u) ORDER BY v, b'
folders=(fewest few)
ask 'SKYLINE OF' 'SELECT v, b FROM t SKYLINE OF v MAX, b MIN' \
  'SELECT v, b FROM t AS x WHERE NOT EXISTS (SELECT 1 FROM t AS y WHERE y.v >= x.v AND y.b <= x.b AND (y.v > x.v OR y.b < x.b)) ORDER BY v, b'
