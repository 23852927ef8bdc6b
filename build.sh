#!/usr/bin/env bash
# Builds a program, with its proof, by running it on an example: build.sh CRATE WORD..
# On err it says which crate it proves, of how many; where all is proved already it says nothing.
set -u
top=$(cd "$(dirname "${BASH_SOURCE[0]}")" && pwd)
log=$(mktemp)
trap 'rm -f "$log"' EXIT
crate=$1
shift

# How many crates of the repository a crate stands on, with itself.
count_crates() {
  awk -v want="$1" '
    function visit(name,   parts, n, i) {
      if (!(name in below) || name in seen) return
      seen[name] = 1
      total++
      n = split(below[name], parts, " ")
      for (i = 1; i <= n; i++) visit(parts[i])
    }
    /^[a-z]/ { name = $1; sub(/:$/, "", name); $1 = ""; below[name] = $0 }
    END { visit(want); print total }' "$top/crates.txt"
}

# `rt run` proves and builds what has changed, and then runs the program.
total=$(count_crates "$crate")
begun=0
(cd "$top/crates/$crate" && rt run -- "$@") 2>&1 | while IFS= read -r line; do
  printf '%s\n' "$line" >>"$log"
  case $line in
    "rt: chose --jobs "*" for "*)
      begun=$((begun + 1))
      echo "proving ${line##* for }, $begun of $total" >&2
      ;;
  esac
done
if [ "${PIPESTATUS[0]}" -ne 0 ]; then
  cat "$log" >&2
  exit 2
fi
