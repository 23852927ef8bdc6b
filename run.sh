#!/usr/bin/env bash
# Builds `cheetah`, with its proof, and runs it with the words that are given; with none, on the example.
set -u
top=$(cd "$(dirname "${BASH_SOURCE[0]}")" && pwd)
query='SELECT a FROM t WHERE a > 4'
"$top/build.sh" cheetah_main --query "$query" "t=$top/examples/filter/t.csv" || exit 2
if [ $# -eq 0 ]; then
  cd "$top/examples/filter" && set -- --query "$query" t=t.csv
fi
"$top/crates/cheetah_main/out/cheetah_main" "$@"
