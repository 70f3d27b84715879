#!/bin/sh
# `plain` beside bench/plain.rs: bench/plain.sh --help says how. After `rt run` in crates/plain.
exec python3 "$(dirname "$0")/beside.py" plain "$@"
