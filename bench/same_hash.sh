#!/usr/bin/env bash
# Counts the instructions of `htn bound` on a domain whose constants all have one hash under the library's hasher, 10,000 of them
# and 80,000 (bench/words_of_one_hash.py). Words are found in n log n whatever the text, so the second count is to be less than
# twelve times the first; looking through the words of one hash in turn it would be some sixty times. Wants ./htn, as
# examples/transport/run leaves it, python3 and valgrind. A line each: the instructions, and then how many times the first the
# second is. The status is 1 where that is twelve or more.
set -euo pipefail
top=$(cd "$(dirname "$0")/.." && pwd)
work=$(mktemp -d)
trap 'rm -rf "$work"' EXIT

counted() {
    {
        echo "(define (domain d) (:constants"
        python3 "$top/bench/words_of_one_hash.py" "$1"
        echo " ) (:task t))"
    } >"$work/domain"
    valgrind --tool=callgrind --callgrind-out-file=/dev/null "$top/htn" bound "$work/domain" "$work/problem" >"$work/log" 2>&1 || true
    sed -n 's/.*Collected : //p' "$work/log"
}

echo "(define (problem p) (:domain d) (:htn :subtasks (t)))" >"$work/problem"
few=$(counted 10000)
many=$(counted 80000)
echo "10,000 words of one hash: $few"
echo "80,000 words of one hash: $many"
awk -v few="$few" -v many="$many" 'BEGIN { print "times: " many / few; exit !(many < 12 * few) }'
