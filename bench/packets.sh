#!/usr/bin/env bash
# How many calls are read, and how many replies written, in a second on one processor: of 100 packets, 40 are GETATTR,
# 25 LOOKUP, 15 READ and 10 WRITE of 8 KiB, and 10 others. Beside it, the same work in plain Rust. Each number is the
# best of five runs, which take turns. Wants rustc for the plain program, which is left out without it.
set -eu
shopt -s inherit_errexit
cd "$(dirname "$0")/.."
bin/run packets_bench
proved=crates/packets_bench/out/packets_bench
folder=$(mktemp -d)
trap 'rm -rf "$folder"' EXIT
plain=
if command -v rustc >/dev/null; then
    plain=$folder/plain
    rustc --edition 2021 -O -o "$plain" bench/packets.rs
else
    echo "no rustc: the program in plain Rust is left out"
fi

# packets COUNT PROCEDURE ARGUMENTS RESULTS: so many calls with these arguments, and replies with these results
packets() {
    for _ in $(seq "$1"); do
        echo "call $2 $3"
        echo "reply $2 00000000$4"
    done
}

one=00000001
none=00000000
word=00000bb8
long=0000000000000bb8
handle=00000020534c48310000000000000000000000070000000000000bb80000000100000000
name=00000009696e6465782e68746d000000
time=6931000000000bb8
fattr=00000001$word$word$word$word$long$long$none$none$long$long$time$time$time
wcc=$none$one$fattr
settings=$one$word$none$none$none$one$none
data=00002000$(printf 'a5%.0s' $(seq 8192))
entry=$one$long$name$long$one$fattr$one$handle
{
    packets 40 1 "$handle" "$fattr"
    packets 25 3 "$handle$name" "$handle$one$fattr$one$fattr"
    packets 15 6 "$handle$long$word" "$one$fattr$word$none$data"
    packets 10 7 "$handle$long$word$none$data" "$wcc$word$none$long"
    packets 2 2 "$handle$settings$none" "$wcc"
    packets 3 4 "$handle$word" "$one$fattr$word"
    packets 1 8 "$handle$name$none$settings" "$one$handle$one$fattr$wcc"
    packets 1 12 "$handle$name" "$wcc"
    packets 2 17 "$handle$long$long$word$word" "$one$fattr$long$entry$entry$entry$entry$entry$entry$entry$entry$none$one"
    packets 1 21 "$handle$long$word" "$wcc$long"
} >"$folder/packets"

rounds=10000
# best PROGRAM MICROSECONDS..: the lesser of the two measured times and those given, with what was read and written
best() {
    local calls_took calls_read replies_took bytes_written
    read -r calls_took calls_read replies_took bytes_written < <("$1" "$rounds" <"$folder/packets")
    echo $((calls_took < $2 ? calls_took : $2)) $((replies_took < $3 ? replies_took : $3)) "$calls_read" "$bytes_written"
}

# report NAME CALLS_TOOK REPLIES_TOOK CALLS_READ BYTES_WRITTEN
report() {
    echo "$1: $(($4 * 1000000 / $2)) calls read/s, $((rounds * 100 * 1000000 / $3)) replies written/s"
}

never=1000000000000
proved_best="$never $never"
plain_best="$never $never"
for _ in 1 2 3 4 5; do
    proved_best=$(best "$proved" $proved_best)
    [ -z "$plain" ] || plain_best=$(best "$plain" $plain_best)
done
report "proved" $proved_best
[ -z "$plain" ] || report "plain Rust" $plain_best
