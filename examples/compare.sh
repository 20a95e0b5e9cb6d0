#!/usr/bin/env bash
# Tries the bridge from Maude's own syntax, `from-maude`, on all modules of examples/mixfix: see tools/try_bridge.py.
exec python3 "$(dirname "$(realpath "${BASH_SOURCE[0]}")")/../tools/try_bridge.py" "$@"
