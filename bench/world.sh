#!/bin/sh
# `world` beside bench/world.rs: bench/world.sh --help says how. After `rt run` in crates/world.
exec python3 "$(dirname "$0")/beside.py" world "$@"
