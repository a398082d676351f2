#!/usr/bin/env bash
# Prints how many megabytes (10^6 bytes) a second the proved crates digest, encrypt, multiply, encode and decode: scfs_bench over 1 MiB,
# three runs of about two seconds of processor time each. A run of few rounds is subtracted, so that starting and filling don't count.
# Then it prints how many steps a second like that of a commit the tuple space does over 1,000 and over 100,000 tuples, how many
# megabytes a second are sealed and opened over 64 KiB and 1 MiB, how many the reader of schedules reads, in pieces of 64 KiB and byte by
# byte, and how long replays of two writers take, with and without restarts, and how much memory at their peak. Last it prints what the
# machine itself does in the same run: how fast it copies memory, and OpenSSL's SHA-256 and ChaCha20 where it has `openssl`.
set -euo pipefail
bench=$(cd "$(dirname "$0")" && pwd)
cd "$bench/../crates/scfs_bench"
rt run -- all 1 >/dev/null
program=$PWD/out/scfs_bench

few=2
mebibyte=1048576

# The seconds of processor time that a measure takes for a number of rounds: what else runs on the machine counts little.
seconds() {
    local TIMEFORMAT='%U %S'
    { time "$program" "$1" "$2" >/dev/null; } 2>&1 | awk '{ print $1 + $2 }'
}

# The rounds that a measure does in about two seconds, from a run of so many.
enough() {
    awk -v few="$(seconds "$1" $few)" -v some="$(seconds "$1" "$2")" -v n=$(($2 - few)) -v least="$2" '
        BEGIN { took = some - few; if (took < 0.001) took = 0.001; print int(2 * n / took) + least }'
}

# How much a second a measure does in one run of a number of rounds, where this much is done in one.
speed() {
    awk -v few="$(seconds "$1" $few)" -v all="$(seconds "$1" "$2")" -v done="$((($2 - few) * $3))" '
        BEGIN { printf "%9.1f", done / (all - few) / 1e6 }'
}

# Three runs of a measure, where this much is done in one round; so many rounds are tried first.
row() {
    local rounds
    rounds=$(enough "$1" "${3:-64}")
    printf '%-11s %8d' "$1" "$rounds"
    for _ in 1 2 3; do
        printf ' %s' "$(speed "$1" "$rounds" "$2")"
    done
    echo
}

echo "MB/s over 1 MiB, $(nproc) processors, load $(cut -d' ' -f1 /proc/loadavg)"
printf '%-11s %8s %9s %9s %9s\n' measure rounds first second third
for measure in digest stream row encode1 encode3 decode1 decode3; do
    row "$measure" $mebibyte
done
# malloc gives the system back the blocks that a round frees, and the next round's are then cleared pages again. Told to keep up to 64 MiB
# it doesn't, so these rows are what the code itself takes.
echo "the same where malloc keeps what was freed"
export MALLOC_TRIM_THRESHOLD_=67108864 MALLOC_MMAP_THRESHOLD_=33554432
for measure in encode1 encode3 decode1 decode3; do
    row "$measure" $mebibyte
done
unset MALLOC_TRIM_THRESHOLD_ MALLOC_MMAP_THRESHOLD_
echo "steps a second"
for measure in steps1000 steps100000; do
    row "$measure" 1000000
done
echo "MB/s sealed and opened for four clouds, over 64 KiB and over 1 MiB"
for measure in seal64 open64; do
    row "$measure" 65536
done
for measure in seal1024 open1024; do
    row "$measure" $mebibyte
done
echo "MB/s of a schedule read, in pieces of 64 KiB and byte by byte"
row read64k 60000000 4
row read1 1000000 8

# The seconds and the peak memory of a replay of two writers that write so many bytes a close, over a number of rounds.
replay() {
    local schedule hwm=0 now start end
    schedule=$(mktemp)
    "$bench/two_writers.py" "$@" >"$schedule"
    start=$(date +%s.%N)
    "$bench/../scfs" replay <"$schedule" >/dev/null &
    while kill -0 $! 2>/dev/null; do
        now=$(awk '/VmHWM/ { print $2 }' "/proc/$!/status" 2>/dev/null || true)
        hwm=${now:-$hwm}
        sleep 0.02
    done
    wait $!
    end=$(date +%s.%N)
    awk -v size="$1" -v lines="$(wc -l <"$schedule")" -v start="$start" -v end="$end" -v hwm="$hwm" '
        BEGIN { printf "%-11s %8d %9.2f %9.1f\n", size " bytes", lines - 8, end - start, hwm / 1024 }'
    rm -f "$schedule"
}

"$bench/../scfs" replay <"$bench/../examples/create-and-stat.schedule" >/dev/null
echo "replays of two writers"
printf '%-11s %8s %9s %9s\n' 'a close' events seconds 'peak MiB'
replay 16 9500
replay 2048 9500
echo "the same with ticks, renewals, crashes and starts"
replay 16 714 restarts
replay 2048 714 restarts

echo "MB/s of the machine"
python3 - <<'END'
import time

for name, size, times in (("copy 1 MiB", 1 << 20, 2000), ("copy 64 MiB", 64 << 20, 20)):
    source, target = bytearray(b"x") * size, bytearray(size)
    view = memoryview(target)
    view[:] = source
    start = time.process_time()
    for _ in range(times):
        view[:] = source
    print(f"{name:<20} {size * times / (time.process_time() - start) / 1e6:9.1f}")
END
if command -v openssl >/dev/null; then
    for name in sha256 chacha20; do
        openssl speed -seconds 1 -bytes 16384 -evp "$name" 2>/dev/null |
            awk -v name="openssl $name" '/k$/ { sub(/k$/, "", $NF); printf "%-20s %9.1f\n", name, $NF / 1000 }'
    done
fi
