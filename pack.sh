#!/usr/bin/env bash
# Builds `cheetah_pack`, with its proof, and runs it with the words that are given; with none, it answers the queries of the example.
set -u
top=$(cd "$(dirname "${BASH_SOURCE[0]}")" && pwd)
packing="$top/examples/packing"
sales="$top/examples/sales"
"$top/build.sh" cheetah_pack_main "$packing/queries" "$packing/profile" "sales=$sales/sales-0.csv" "sales=$sales/sales-1.csv" "sales=$sales/sales-2.csv" || exit 2
if [ $# -eq 0 ]; then
  cd "$packing" && set -- queries profile sales=../sales/sales-0.csv sales=../sales/sales-1.csv sales=../sales/sales-2.csv
fi
"$top/crates/cheetah_pack_main/out/cheetah_pack_main" "$@"
