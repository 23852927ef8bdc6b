#!/usr/bin/env bash
# Builds `cheetah_gen`, with its proof, and runs it with the words that are given; with none, on an example.
set -u
top=$(cd "$(dirname "${BASH_SOURCE[0]}")" && pwd)
"$top/build.sh" cheetah_gen_main 7 9 group || exit 2
if [ $# -eq 0 ]; then
  set -- 7 2000 group
fi
"$top/crates/cheetah_gen_main/out/cheetah_gen_main" "$@"
