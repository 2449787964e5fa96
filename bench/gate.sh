#!/usr/bin/env bash
# Runs the gate, `rt ci`, and prints at its end where the time went: processor seconds by crate, for its proof, its tests and its edits.
# usage: bench/gate.sh [rt ci's words]      e.g. bench/gate.sh --anew
#        bench/gate.sh --watch PID          of an `rt ci` that runs already, from now on
set -euo pipefail
exec python3 "$(dirname "$(realpath "$0")")/gate_times.py" "$@"
