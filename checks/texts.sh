#!/usr/bin/env bash
# Every line of many transcripts that an independent simulator prints is read and printed again to the same bytes, and
# lines that were changed at random are read as independent readers read them. Skipped where python3 or those are missing.
set -u
cd "$(dirname "$0")/.." || exit 1
simulator=../shared/sim
judge=../shared/judge
if ! command -v python3 >/dev/null || [ ! -f "$simulator/sim.py" ] || [ ! -f "$judge/judge.py" ]; then
    echo "skipped: python3, $simulator/sim.py or $judge/judge.py is missing"
    exit 0
fi
exec python3 checks/texts.py "$simulator" "$judge" 200
