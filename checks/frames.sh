#!/usr/bin/env bash
# The frames that a simulator of the protocol sends in its schedules and in 200 random ones are read and printed again to
# the same bytes; and frames that are changed are read exactly where a reader written apart from this one takes them.
# Skipped where python3, the simulator or that reader is missing.
set -u
cd "$(dirname "$0")/.." || exit 1
simulator=../shared/sim
reader=../shared/judge
if ! command -v python3 >/dev/null || [ ! -f "$simulator/sim.py" ] || [ ! -f "$reader/frames.py" ]; then
    echo "skipped: python3, $simulator or $reader is missing"
    exit 0
fi
exec python3 checks/frames.py "$simulator" "$reader" 200
