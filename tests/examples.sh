#!/usr/bin/env bash
# Runs the programs on the examples, and compares the status and what is written with what the documents say: the first run of
# README.md; the two runs over the network of docs/protocol.md; the queries of docs/examples.md, each without a schedule and
# with the one of examples/sales; and its statuses; the packed queries of docs/packing.md and the worked rows of packing; and
# the worked rows of a trace. It writes what differs, and at the end how many runs there were. The status is 0 where all are as
# they should be.
set -u
top=$(cd "$(dirname "${BASH_SOURCE[0]}")/.." && pwd)
program=$top/crates/cheetah_main/out/cheetah_main
page=$top/docs/examples.md
"$top/build.sh" cheetah_main --query 'SELECT a FROM t' "t=$top/examples/filter/t.csv" >/dev/null || exit 2
folder=$(mktemp -d)
trap 'rm -rf "$folder"' EXIT
runs=0
failed=0

# check NAME STATUS OUT ERR WORD ..: runs the program with the words
check() {
  local name=$1 want=$2 out=$3 err=$4 status
  shift 4
  "$program" "$@" >"$folder/out" 2>"$folder/err"
  status=$?
  runs=$((runs + 1))
  [ "$status" -eq "$want" ] && [ "$(cat "$folder/out")" = "$out" ] && [ "$(cat "$folder/err")" = "$err" ] && return
  echo "$name: status $status" >&2
  cat "$folder/out" "$folder/err" >&2
  failed=1
}

cd "$top/examples/filter" || exit 2
check 'README.md' 0 $'a\n5\n9' 'rows=3 sends=4 pruned=1 forwarded=3 steps=15' --query 'SELECT a FROM t WHERE a > 4' t=t.csv

cd "$top/examples/network" || exit 2
distinct=(--query 'SELECT DISTINCT a FROM t' t=t0.csv t=t1.csv)
check 'a restart' 0 $'a\n5' 'rows=2 sends=7 pruned=2 forwarded=5 steps=25' "${distinct[@]}" --schedule restart.schedule
check 'a schedule that ends too early' 4 '' 'pass 1 worker 0 acknowledged 1 of 2 unacknowledged none
pass 1 worker 1 acknowledged 0 of 2 unacknowledged 0
partial answer rows=0' "${distinct[@]}" --schedule open.schedule

# column N: that column of the lines of the page's first table
column() {
  sed -n 's/^| `\(SELECT [^`]*\)` | \(.*\) | `\(rows=[^`]*\)` |$/\'"$1"'/p' "$page"
}

cd "$top/examples/sales" || exit 2
tables=(sales=sales-0.csv sales=sales-1.csv sales=sales-2.csv customers=customers.csv)
mapfile -t queries < <(column 1)
mapfile -t answers < <(column 2 | sed 's/`; `/\\n/g; s/`//g')
mapfile -t counts < <(column 3)
mapfile -t counts_there < <(sed -n 's/^| [^`|]* | `\(rows=[^`]*\)` |$/\1/p' "$page")
for at in "${!queries[@]}"; do
  query=${queries[at]}
  header=$(sed 's/^SELECT \(DISTINCT \)\{0,1\}\(.*\)$/\2/; s/ FROM .*$//; s/, /,/g' <<<"$query")
  answer=$header$'\n'$(printf '%b' "${answers[at]}")
  check "$query" 0 "$answer" "${counts[at]}" --query "$query" "${tables[@]}"
  check "$query, over a network" 0 "$answer" "${counts_there[at]}" --query "$query" --schedule network.schedule "${tables[@]}"
done

cd "$top/examples/filter" || exit 2
echo 'stages 1' >"$folder/p"
echo 'send 0' >"$folder/s"
head -c 60000000 /dev/zero >"$folder/big.csv"
all=(--query 'SELECT a FROM t')
check 'status 1' 1 '' 'usage: table word 0' "${all[@]}" t.csv
check 'status 2' 2 '' 'input: query column 0: unknown' --query 'SELECT b FROM t' t=t.csv
check 'status 3' 3 '' 'plan refused: stages need 2 have 1' "${all[@]}" --profile "$folder/p" t=t.csv
check 'status 4' 4 '' $'pass 1 worker 0 acknowledged 0 of 4 unacknowledged 0\npartial answer rows=0' "${all[@]}" --schedule "$folder/s" t=t.csv
check 'status 5' 5 '' 'read fault: ..' "${all[@]}" t=..
full=$("$program" "${all[@]}" t=t.csv 2>&1 >/dev/full)
[ $? -eq 6 ] && [ "$full" = 'write fault' ] || { echo "status 6: $full" >&2; failed=1; }
few=$(ulimit -v 20000; "$program" "${all[@]}" t="$folder/big.csv" 2>&1)
[ $? -eq 7 ] && [ "$few" = 'memory' ] || { echo "status 7: $few" >&2; failed=1; }

cd "$top/examples/packing" || exit 2
sales=(sales=../sales/sales-0.csv sales=../sales/sales-1.csv sales=../sales/sales-2.csv)
"$top/build.sh" cheetah_pack_main queries profile "${sales[@]}" >/dev/null || exit 2
program=$top/crates/cheetah_pack_main/out/cheetah_pack_main
# block N: the text of that block of docs/packing.md
block() {
  awk -v want="$1" '/^```/ { inside = !inside; seen += inside; next } inside && seen == want' "$top/docs/packing.md"
}
check 'four packed queries' 0 "$(block 4)" "$(block 5)" queries profile "${sales[@]}"
check 'four queries that need too much' 3 '' "$(block 6)" queries - "${sales[@]}"
cd "$top/crates/cheetah_pack_main/data" || exit 2
counts='rows=4 sends=5 pruned=1 forwarded=4 steps=19'
check 'Two packed queries' 0 "$(cat ../stdout)" "$counts"$'\n'"$counts" queries profile t=t.csv
{ cat profile; echo 'stages 13'; } >"$folder/few"
check 'Packing refused' 3 '' 'pack refused: stages need 14 have 13' queries "$folder/few" t=t.csv

cd "$folder" || exit 2
echo a >t.csv
echo drain >drain
words=('SELECT DISTINCT a FROM t')
"$top/build.sh" cheetah_audit_main write "${words[0]}" "$folder/drain" - "t=$folder/t.csv" >/dev/null || exit 2
program=$top/crates/cheetah_audit_main/out/cheetah_audit_main
trace='send 0 c702020100000000000000000000000000
up 0 take c702020100000000000000000000000000 forwarded
down 0 take c702020100000000000000000000000000 new
back 0 take c702030100000100000000000000000000 taken
end done'
check 'Written trace' 0 "$trace" '' write "${words[@]}" drain - t=t.csv
echo "$trace" >trace
check 'Checked trace' 0 'accepted done events=4 received=0' '' check "${words[@]}" trace - t=t.csv
sed 's/forwarded/passed/' trace >passed
check 'Checked trace, with another fate' 3 '' 'trace refused: line 2' check "${words[@]}" passed - t=t.csv
sed '$d' trace >cut
check 'Checked trace, without its last line' 3 '' 'trace refused: line 5' check "${words[@]}" cut - t=t.csv
echo "$((runs + 2)) runs"
exit "$failed"
