#!/usr/bin/env bash
# The transcripts of 300 random schedules of NULL calls, refused calls, junk and GETATTR calls, with frames given in any
# order, are those of one server, as an independent judge of transcripts says. Skipped where python3 or the judge is missing.
set -u
cd "$(dirname "$0")/.." || exit 1
judge=../shared/judge/judge.py
if ! command -v python3 >/dev/null || [ ! -f "$judge" ]; then
    echo "skipped: python3 or $judge is missing"
    exit 0
fi
exec python3 checks/judged.py "$judge" 300
