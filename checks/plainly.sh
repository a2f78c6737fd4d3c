#!/usr/bin/env bash
# 60,000 random requests over few names, most of them calls, on six volumes, are performed by the plain server and by
# an independent one: the same bytes are printed for each. Skipped where python3 or the independent server is missing.
set -u
cd "$(dirname "$0")/.." || exit 1
server=../shared/judge
if ! command -v python3 >/dev/null || [ ! -f "$server/volume.py" ]; then
    echo "skipped: python3 or $server/volume.py is missing"
    exit 0
fi
exec python3 checks/plainly.py "$server" 10000 1 2 3 4 5 6
