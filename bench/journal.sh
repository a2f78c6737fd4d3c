#!/usr/bin/env bash
# How many records a journal appends in a second: records of 200 bytes and of 8 KiB, in memory and in a file of a
# temporary folder, beside the same four device calls (write, sync, write, sync) in plain Rust; whether an append costs
# more where 1000000 records stand before it; and how long the opening of a journal of 1000000 records takes, which
# reads once, beside one read and a list of the payloads in plain Rust. Each number is the best of five runs, which take
# turns. Wants rustc for the plain calls, which are left out without it, and 3 GB of memory.
set -eu
shopt -s inherit_errexit
cd "$(dirname "$0")/.."
bin/run journal_bench
journal=crates/journal_bench/out/journal_bench
folder=$(mktemp -d)
trap 'rm -rf "$folder"' EXIT
plain=
if command -v rustc >/dev/null; then
    plain=$folder/plain
    rustc -O -o "$plain" bench/journal.rs
else
    echo "no rustc: the calls in plain Rust are left out"
fi

# measure LEAST COMMAND..: runs the command, in which `files` stands for a new folder; gives the microseconds that it
# prints, or LEAST if that is less
measure() {
    local least=$1 took
    shift
    mkdir "$folder/disks"
    took=$("${@/#files/$folder/disks}")
    rm -r "$folder/disks"
    [ "$took" -gt 0 ] || took=1
    echo $((took < least ? took : least))
}

never=1000000000000
# best WORD..: the least microseconds of both programs in `journal_took` and `plain_took`
best() {
    journal_took=$never
    plain_took=$never
    for _ in 1 2 3 4 5; do
        journal_took=$(measure "$journal_took" "$journal" "$@")
        [ -z "$plain" ] || plain_took=$(measure "$plain_took" "$plain" "$@")
    done
}

# compare SHELF SIZE COUNT
compare() {
    local line
    best append "$1" "$2" 10 "$3"
    line="$1, records of $2 bytes: $(($3 * 1000000 / journal_took)) appends/s"
    [ -z "$plain" ] || line="$line; the calls in plain Rust: $(($3 * 1000000 / plain_took))/s"
    echo "$line"
}

compare memory 200 50000
compare memory 8192 5000
compare files 200 200
compare files 8192 200

few=$never
many=$never
for _ in 1 2 3 4 5; do
    few=$(measure "$few" "$journal" append memory 200 10 20000)
    many=$(measure "$many" "$journal" append memory 200 1000000 20000)
done
echo "memory, records of 200 bytes: an append takes $((few / 20)) ns after 10 others, $((many / 20)) ns after 1000000"

best open memory 200 1000000
line="memory, 1000000 records of 200 bytes: an opening takes $((journal_took / 1000)) ms"
[ -z "$plain" ] || line="$line; one read and a list of payloads in plain Rust: $((plain_took / 1000)) ms"
echo "$line"
