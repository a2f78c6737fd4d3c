#!/usr/bin/env bash
# The table of cases that the plain server is run on is answered by an independent server as it says, with the same bytes
# where it gives bytes. Skipped where python3 or the independent server is missing.
set -u
cd "$(dirname "$0")/.." || exit 1
server=../shared/judge
if ! command -v python3 >/dev/null || [ ! -f "$server/volume.py" ]; then
    echo "skipped: python3 or $server/volume.py is missing"
    exit 0
fi
exec python3 checks/cases.py "$server" crates/plain_cases/stdin
