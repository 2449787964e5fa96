#!/usr/bin/env bash
# Times `metasync audit` beside `sha256sum` of the same file. The answer is that of bench/audit_reference.py, which is compared first.
# Prints medians of five runs in milliseconds and their ratio.
# usage: bench/audit.sh PROGRAM
set -euo pipefail
# shellcheck source=bench/timing.bash
source "$(dirname "$(realpath "$0")")/timing.bash"

printf '%-10s %8s %4s %10s %10s %7s\n' kind services MiB "audit ms" "sha256 ms" ratio
for kind in short spread foreign chain turns contested; do
  for services in 3 16; do
    for mib in 1 4 16; do
      python3 "$here/make_dump.py" "$kind" "$services" $((mib * 1048576)) >dump
      python3 "$here/audit_reference.py" dump >told
      want 0 told "$program" audit dump
      audit=$(median 0 "$program" audit dump)
      sha=$(median 0 sha256sum dump)
      printf '%-10s %8s %4s %10s %10s %7s\n' "$kind" "$services" "$mib" "$audit" "$sha" "$(ratio "$audit" "$sha")"
    done
  done
done
