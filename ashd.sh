#!/usr/bin/env bash
# Runs ashd with the given words, in the caller's directory. It is proved and built first where that is not done yet for
# the present sources.
set -euo pipefail
top=$(dirname "$(readlink -f "$0")")
python3 "$top/tools/build_ashd.py"
exec "$top/crates/ashd/out/ashd" "$@"
