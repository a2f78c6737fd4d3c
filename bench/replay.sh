#!/usr/bin/env bash
# How fast the built program replays NULL calls: schedules of 1, 8 and 64 MiB, with calls and megabytes a second on one
# processor, and the most memory that it held. Then GETATTR calls, each flowed to its reply, with 10 and with 250 frames in
# flight at a time (256 calls wait at most, and each has one frame in flight), in events a second. Wants GNU time.
set -eu
cd "$(dirname "$0")/.."
bin/slice replay </dev/null >/dev/null 2>&1 || true
schedule=$(mktemp)
trap 'rm -f "$schedule" "$schedule.time"' EXIT
call="call 0 ffffffff0000000000000002000186a3000000030000000000000000000000000000000000000000"
for mebibytes in 1 8 64; do
    calls=$(((mebibytes * 1048576 - 24) / (${#call} + 1)))
    {
        echo "volume 1 switch 0 1 1 1"
        yes "$call" | head -n "$calls"
    } >"$schedule"
    /usr/bin/time -f "%e %M" -o "$schedule.time" crates/slice/out/slice replay <"$schedule" >/dev/null
    read -r seconds kilobytes <"$schedule.time"
    awk -v m="$mebibytes" -v n="$calls" -v s="$seconds" -v k="$kilobytes" 'BEGIN {
        if (s == 0) s = 0.005
        printf "%2d MiB: %.2f s, %.0f calls/s, %.0f MB/s, %.0f MB of memory\n", m, s, n / s, m * 1.048576 / s, k / 1000 }'
done

root="000000070000000000000002000186a300000003000000010000000000000000000000000000000000000020534c483100000000000000000000000100000000000000010000000200000000"
for waiting in 10 250; do
    rounds=$((100000 / waiting))
    {
        echo "volume 1 switch 0 1 1 1"
        echo "flow 2"
        for _ in $(seq "$rounds"); do
            yes "call 0 $root" | head -n "$waiting"
            echo "flow $((2 * waiting))"
        done
    } >"$schedule"
    /usr/bin/time -f "%e %M" -o "$schedule.time" crates/slice/out/slice replay <"$schedule" >/dev/null
    read -r seconds kilobytes <"$schedule.time"
    awk -v w="$waiting" -v n="$((rounds * waiting * 3))" -v s="$seconds" -v k="$kilobytes" 'BEGIN {
        if (s == 0) s = 0.005
        printf "%3d calls wait: %.2f s, %.0f events/s, %.0f MB of memory\n", w, s, n / s, k / 1000 }'
done
