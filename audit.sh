#!/usr/bin/env bash
# Builds `cheetah_audit`, with its proof, and runs it with the words that are given; with none, it writes the trace of the example.
set -u
top=$(cd "$(dirname "${BASH_SOURCE[0]}")" && pwd)
network="$top/examples/network"
query='SELECT DISTINCT a FROM t'
"$top/build.sh" cheetah_audit_main write "$query" "$network/restart.schedule" - "t=$network/t0.csv" "t=$network/t1.csv" || exit 2
if [ $# -eq 0 ]; then
  cd "$network" && set -- write "$query" restart.schedule - t=t0.csv t=t1.csv
fi
"$top/crates/cheetah_audit_main/out/cheetah_audit_main" "$@"
