#!/usr/bin/env bash
# A process that ends while it appends to a journal in a file loses no record that it acknowledged. 30 times on one and
# the same folder a program adds numbered records, and prints the number of each once the append has answered; it is
# killed after a random time, or ends inside a write, at a random limit of the file's size, of which the write leaves
# just the part below. After each end the journal has at least the records whose numbers were printed, each of them the
# right one, and at most one more. Skipped where a tool is missing.
set -u
cd "$(dirname "$0")/.." || exit 1
for tool in mktemp sleep tail stat; do
    if ! command -v "$tool" >/dev/null; then
        echo "skipped: $tool is missing"
        exit 0
    fi
done
# With no words the program does nothing; where it isn't built yet it is built first.
bin/run journal_keeper || exit 1
keeper=crates/journal_keeper/out/journal_keeper
folder=$(mktemp -d) || exit 1
trap 'rm -rf "$folder"' EXIT
numbers=$folder/numbers
known=0
unprinted=0
inside=0
ulimit -c 0
# killed_later: adds records until it is killed, after 50 to 500 milliseconds
killed_later() {
    "$keeper" append "$folder" 1000000000 >"$numbers" &
    sleep "0.$(printf '%03d' $((50 + RANDOM % 450)))"
    kill -KILL $!
    wait $! 2>/dev/null
}

# ended_inside: adds records until a write passes a limit of the file's size, 1 to 64 KiB past what it has
ended_inside() {
    local size limit status
    size=$(stat -c %s "$folder/disk16")
    limit=$((size / 1024 + 1 + RANDOM % 64))
    (
        ulimit -f "$limit"
        exec "$keeper" append "$folder" 1000000000
    ) >"$numbers" 2>/dev/null
    status=$?
    [ "$(stat -c %s "$folder/disk16")" != $((limit * 1024)) ] || inside=$((inside + 1))
    return $status
}

for end in {1..30}; do
    if [ $((end % 3)) = 0 ]; then ended_inside; else killed_later; fi 2>/dev/null
    status=$?
    if [ "$status" -le 128 ]; then
        echo "end $end: the program ended by itself, with status $status"
        exit 1
    fi
    last=$(tail -n 1 "$numbers")
    [ -z "$last" ] || known=$((last + 1))
    if ! found=$("$keeper" count "$folder"); then
        echo "end $end: the journal doesn't open after $known records"
        exit 1
    fi
    if [ "$found" -lt "$known" ] || [ "$found" -gt $((known + 1)) ]; then
        echo "end $end: $found records, where $known were acknowledged"
        exit 1
    fi
    unprinted=$((unprinted + found - known))
    known=$found
done
echo "30 ends of a process, $inside inside a write, left $known records; $unprinted of their numbers had not been printed"
