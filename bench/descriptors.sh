#!/bin/bash
# Whether a server of connections goes on after it ran out of descriptors.
#
#   descriptors.sh PORT PROGRAM [ARGUMENT..]
#
# PROGRAM is run with 24 descriptors at most, and listens for switches on PORT of 127.0.0.1. 32 peers
# connect, and each sends an echo request: those that find a descriptor are answered, and the others
# wait. Then the first four close, and others are answered in their place. It prints how many were
# answered each time, and the processor time that the program took in two seconds in which all waited.
# It exits with status 1 where none was left to wait, or not four more were answered.
set -u
export LC_ALL=C
if [ $# -lt 2 ]; then
    echo "usage: descriptors.sh PORT PROGRAM [ARGUMENT..]" >&2
    exit 2
fi
port=$1
shift
(
    ulimit -n 24
    exec "$@"
) &
server=$!
trap 'kill "$server" 2>/dev/null; wait "$server" 2>/dev/null' EXIT
sleep 0.5

peers=()
for _ in $(seq 32); do
    exec {peer}<>"/dev/tcp/127.0.0.1/$port" || exit 1
    printf '\x01\x02\x00\x08\x00\x00\x00\x07' >&"$peer"
    peers+=("$peer")
done

# Counts in `more` the peers that get their first answer, and keeps in `waiting` those that get none.
hear() {
    local peer byte
    more=0
    waiting=()
    for peer in "$@"; do
        if IFS= read -r -t 0.1 -N 1 -u "$peer" byte; then
            more=$((more + 1))
        else
            waiting+=("$peer")
        fi
    done
}

# In hundredths of a second.
processor_time() {
    awk '{ print $14 + $15 }' "/proc/$server/stat"
}

hear "${peers[@]}"
echo "answered: $more of ${#peers[@]}"
[ ${#waiting[@]} -ge 4 ] || exit 1

before=$(processor_time)
sleep 2
echo "processor time in 2 s, while ${#waiting[@]} wait: $(($(processor_time) - before)) hundredths of a second"

for peer in "${peers[@]:0:4}"; do
    exec {peer}>&-
done
hear "${waiting[@]}"
echo "answered after 4 closed: $more more"
[ "$more" -eq 4 ]
