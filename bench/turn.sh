#!/usr/bin/env bash
# What a turn costs, beside the standard library's lock: one thread; four threads; four beside eight that are busy.
# The yardstick: on four processors, turns take at most twice the lock's time in each line.
set -eu
cd "$(git rev-parse --show-toplevel)/crates/turn_bench"
rt run -- times
