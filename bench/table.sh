#!/usr/bin/env bash
# Times the making of the largest table, of 16 services with 16 copies each in 1,024 slots, by a test of ms_plan that `rt test` has
# built; prints the median of five runs in milliseconds.
# usage: bench/table.sh crates/ms_plan/out/ms_plan_tests
set -euo pipefail
# shellcheck source=bench/timing.bash
source "$(dirname "$(realpath "$0")")/timing.bash"

"$program" table_tests::largest_table >passed
grep -q "^test result: ok" passed
printf 'largest table: %s ms\n' "$(median 0 "$program" table_tests::largest_table)"
