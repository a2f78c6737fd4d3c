#!/usr/bin/env bash
# Each schedule of examples/ gives the transcript that lies beside it, and a transcript, read as a schedule, gives itself. Every
# claim holds of each transcript there, and of those of the ensemble's operations.
set -u
cd "$(dirname "$0")/.." || exit 1
failed=0
for schedule in examples/*.schedule; do
    transcript=${schedule%.schedule}.transcript
    for input in "$schedule" "$transcript"; do
        if ! bin/slice replay <"$input" | cmp - "$transcript"; then
            echo "$input: another transcript than $transcript"
            failed=1
        fi
    done
done
for transcript in examples/*.transcript examples/ensemble/*.transcript; do
    if ! bin/referee <"$transcript" | cmp - <(printf '%s yes\n' legal licensed wired fenced remembering completed); then
        echo "$transcript: not every claim holds"
        failed=1
    fi
done
exit $failed
