#!/usr/bin/env bash
# Builds `cheetah_check`, with its proof, and runs it with the words that are given; with none, on the example.
set -u
top=$(cd "$(dirname "${BASH_SOURCE[0]}")" && pwd)
"$top/build.sh" cheetah_check_main "$top/examples/machine/program" || exit 2
if [ $# -eq 0 ]; then
  cd "$top/examples/machine" && set -- program
fi
"$top/crates/cheetah_check_main/out/cheetah_check_main" "$@"
