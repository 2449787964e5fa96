#!/usr/bin/env bash
# Tests over the program as `rt ci` has built it, by LLVM and by the toolchain's own compiler. The last line is 'N passed, M failed'.
# usage: .ci/program.sh [bench/program_tests.py's words]
set -eu
cd "$(dirname "$0")/.."
command -v python3 >/dev/null || { apt-get update && apt-get install -y --no-install-recommends python3; }
built=crates/metasync/out/metasync
programs=("$built")
if [ -e "$built.by-rattle" ]; then
  programs+=("$built.by-rattle")
fi
exec python3 bench/program_tests.py "$@" "${programs[@]}"
