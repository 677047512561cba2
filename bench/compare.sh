#!/bin/bash
# Loads three controllers side by side with switches of openflow_client.c, and prints what each answers.
#
#   compare.sh PROGRAM [ROUNDS [SECONDS]]
#
# PROGRAM is Maple's, as ./maple builds it. The others are Debian's ovs-testcontroller, where it is installed (16
# switches at most), and answer_loop.c. Each cell is measured ROUNDS times (5), for SECONDS each time (2), the three in
# turn, each of them started anew. Printed are the medians of the rounds: answers a second, microseconds of the
# controller's processor time an answer, and with one packet under way the median of a round trip in microseconds.
# Behind the cells of known packets come those of learned ones, 1,000 keys a switch, and then Maple with 64 switches
# that send no packet. Where PREFIX is set, as PREFIX='chrt -f 10', controllers and switches are started by it.
set -u
export LC_ALL=C
if [ $# -lt 1 ] || [ $# -gt 3 ]; then
    echo "usage: compare.sh PROGRAM [ROUNDS [SECONDS]]" >&2
    exit 2
fi
program=$(realpath "$1")
rounds=${2:-5}
seconds=${3:-2}
prefix=${PREFIX:-}
bench=$(dirname "$(realpath "$0")")
room=$(mktemp -d)
server=
port=$((20000 + RANDOM % 8000))
trap 'stop; rm -rf "$room"' EXIT

stop() {
    [ -z "$server" ] || { kill "$server" && wait "$server"; } 2>/dev/null
    server=
}

for name in openflow_client answer_loop; do
    ${CC:-cc} -O2 -o "$room/$name" "$bench/$name.c" || exit 1
done
controllers="maple loop"
if command -v ovs-testcontroller >"$room/which"; then
    controllers="maple testcontroller loop"
fi

# Where a host is known, a packet goes to it, unless it is to TCP port 22: so each port is a key of its own.
cat >"$room/policy" <<'POLICY'
policy learning {
  if host(pkt.dl_dst) as to {
    if pkt.tp_dst == 22 { drop; }
    route to;
  }
  flood;
}
POLICY

# Starts a controller, CONTROLLER MODE, and waits until it listens.
start() {
    port=$((port + 2))
    local flows=--noflow command
    [ "$2" = learned ] && flows=--max-idle=permanent
    case $1 in
    maple) command=("$program" serve --listen $port --control $((port + 1)) --capacity 4096) ;;
    testcontroller) command=(ovs-testcontroller $flows --unixctl="$room/ctl" ptcp:$port:127.0.0.1) ;;
    loop) command=("$room/answer_loop" $port) ;;
    esac
    $prefix "${command[@]}" <"$room/policy" >/dev/null 2>"$room/said" &
    server=$!
    local listens
    listens=$(printf ':%04X [0-9A-F]*:0000 0A' $port)
    for _ in $(seq 100); do
        grep -q "$listens" /proc/net/tcp && return
        sleep 0.1
    done
    echo "compare.sh: $1 doesn't listen: $(cat "$room/said")" >&2
    exit 1
}

# Hundredths of a second of the controller's processor time.
processor_time() {
    awk '{ print $14 + $15 }' "/proc/$server/stat"
}

# One measurement, CONTROLLER SWITCHES WINDOW MODE NUMBER [EVERY]: its line, with the processor time behind it.
measure() {
    start "$1" "$4"
    local before line
    before=$(processor_time)
    line=$($prefix "$room/openflow_client" $port "${@:2}") || exit 1
    echo "$line processor $(($(processor_time) - before))"
    stop
}

# The median of what stands behind a word in the lines of a file, WORD FILE; - where it stands in none.
median() {
    awk -v word="$1" '{ for (i = 1; i < NF; i++) if ($i == word) print $(i + 1) }' "$2" | sort -n |
        awk '{ a[NR] = $1 } END { print NR ? a[int((NR + 1) / 2)] : "-" }'
}

# A cell, SWITCHES WINDOW MODE NUMBER.
cell() {
    local each=$controllers round controller all=
    [ "$3" = learned ] && each=${controllers%loop}
    [ "$1" -gt 16 ] && each=${each/testcontroller/}
    for round in $(seq "$rounds"); do
        for controller in $each; do
            measure "$controller" "$@" >"$room/line" || exit 1
            awk '{ for (i = 1; i < NF; i++) { if ($i == "all") n = $(i + 1); if ($i == "processor") t = $(i + 1) }
                   print $0, n ? sprintf("cost %.2f", t * 1e4 / n) : "" }' "$room/line" >>"$room/$controller.$1.$2.$3"
        done
    done
    for controller in $each; do
        printf '%-8s %8d %6d   %-14s' "$3" "$1" "$2" "$controller"
        for word in per_second cost median_us p99_us last_tenth; do
            printf ' %10s' "$(median $word "$room/$controller.$1.$2.$3")"
        done
        echo
    done
}

echo "$(nproc) processors, load $(cut -d' ' -f1-3 /proc/loadavg), $rounds rounds of $seconds s"
printf '%-8s %8s %6s   %-14s %10s %10s %10s %10s %10s\n' packets switches window controller per_second cost_us \
    median_us p99_us last_tenth
for switches in 1 16 64; do
    for window in 1 64; do
        cell $switches $window known "$seconds"
    done
done
for switches in 1 16; do
    for window in 1 64; do
        cell $switches $window learned 1000
    done
done
echo "64 switches without packets, 10 s; and an echo of each every 5 s; processor time in hundredths of a second:"
measure maple 64 0 idle 10
measure maple 64 0 idle 10 5
echo "load $(cut -d' ' -f1-3 /proc/loadavg) at the end"
