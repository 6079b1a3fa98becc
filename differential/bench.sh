#!/bin/sh
# Instructions of each part of a call (see differential/src/bench.rs), by callgrind: ours read, read and solve, whole; the reference's
# solve, whole. Only what runs inside the call is counted, so that the harness's own work (malloc, hash seeds) does not show.
# The difference between 11 and 1 repetitions, by 10. `./bench.sh ROWS WIDTH`
set -eu
cd "$(dirname "$0")"
program=target/release/differential
count() {
    case $1 in
    1) inside='gannozhi_read*' ;;
    2 | 3) inside='gannozhi_render*' ;;
    4) inside='reference::access::Bench::solve*' ;;
    5) inside='reference::access::Bench::render*' ;;
    esac
    valgrind --tool=callgrind --callgrind-out-file=/dev/null --toggle-collect="$inside" \
        "$program" bench --part "$1" --rows "$2" --width "$3" --times "$4" 2>&1 |
        sed -n 's/.*Collected : //p'
}
printf '%s rows, width %s:' "$1" "$2"
for part in 1 2 3 4 5; do
    printf ' %s' $((($(count $part "$1" "$2" 11) - $(count $part "$1" "$2" 1)) / 10))
done
echo
