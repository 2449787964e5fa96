#!/usr/bin/env bash
# Times a merge of three folders of 100,000 files, of which theirs has changed all, by a test of ms_merge that `rt test` has built;
# prints the median of five runs in milliseconds, with the making of the folders.
# usage: bench/merge.sh crates/ms_merge/out/ms_merge_tests
set -euo pipefail
# shellcheck source=bench/timing.bash
source "$(dirname "$(realpath "$0")")/timing.bash"

"$program" tests::three_folders_of_100_000_files >passed
grep -q "^test result: ok" passed
printf 'three folders of 100,000 files: %s ms\n' "$(median 0 "$program" tests::three_folders_of_100_000_files)"
