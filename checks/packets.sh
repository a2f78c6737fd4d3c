#!/usr/bin/env bash
# 28,000 calls and replies, most of them changed at random, are read as an independent reader reads them: garbage for
# both, or the same canonical bytes. Skipped where python3 or the reader is missing.
set -u
cd "$(dirname "$0")/.." || exit 1
reader=../shared/judge
if ! command -v python3 >/dev/null || [ ! -f "$reader/nfsx.py" ]; then
    echo "skipped: python3 or $reader/nfsx.py is missing"
    exit 0
fi
exec python3 checks/packets.py "$reader" 28000
