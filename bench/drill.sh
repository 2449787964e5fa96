#!/usr/bin/env bash
# Times `metasync drill` of schedules of 1,000 and 10,000 events over 16 services and 16 clients. The answer is that of
# bench/drill_reference.py, which is compared first. Prints medians of five runs in milliseconds and their ratio.
# usage: bench/drill.sh PROGRAM
set -euo pipefail
# shellcheck source=bench/timing.bash
source "$(dirname "$(realpath "$0")")/timing.bash"

printf '%-8s %9s\n' events "drill ms"
few=0
for count in 1000 10000; do
  python3 "$here/make_drill.py" "$count" >schedule
  python3 "$here/drill_reference.py" schedule >told
  want 0 told "$program" drill schedule
  time=$(median 0 "$program" drill schedule)
  printf '%-8s %9s\n' "$count" "$time"
  [ "$few" != 0 ] || few=$time
done
printf 'from 1,000 to 10,000 events: %s times\n' "$(ratio "$time" "$few")"
