#!/usr/bin/env bash
# Transcripts of a simulator's own schedules, of 200 random ones of every mood and of one with very many files, whole and with
# one note or event changed: the referee says of each claim on them what an independent judge finds. Skipped where python3, the
# judge or the simulator is missing.
set -u
cd "$(dirname "$0")/.." || exit 1
judge=../shared/judge/judge.py
simulator=../shared/sim
if ! command -v python3 >/dev/null || [ ! -f "$judge" ] || [ ! -f "$simulator/sim.py" ]; then
    echo "skipped: python3, $judge or $simulator is missing"
    exit 0
fi
bin/referee </dev/null >/dev/null || exit 1
exec python3 checks/claims.py "$judge" "$simulator" 200 bin/referee
