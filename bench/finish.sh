#!/bin/sh
# `finish` beside bench/finish.rs: bench/finish.sh --help says how. After `rt run` in crates/finish.
exec python3 "$(dirname "$0")/beside.py" finish "$@"
