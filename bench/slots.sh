#!/usr/bin/env bash
# Times the whole program on the smallest problem at growing numbers of slots, in both styles and both modes of checks, and on a domain
# with so many actions that a text is long, or too long. Wants ./htn, as examples/transport/run leaves it. A line each: what the program
# told, seconds, kilobytes of memory at most, bytes of the two texts.
#
# Measured with the provers of the machine stopped: at 65,536 slots 0.01 to 0.03 s in style adl (10 to 15 ms of processor time, counted by
# another script, while words stood in their table, with 76 million instructions; with 82, as it is now, 23 to 43 in a slow moment, in which
# the loop of docs/ARCHITECTURE.md took 1.42 to 1.49 s) and 0.03 to 0.07 in style flat; a text of 271,778,014 bytes
# is refused at once, with 1,848 kilobytes: its length is worked out from those with one slot, two and ten; before, after 0.23 s.
set -euo pipefail
top=$(cd "$(dirname "$0")/.." && pwd)
work=$(mktemp -d)
trap 'rm -rf "$work"' EXIT
translate() {
    name=$1
    shift
    rm -f "$work/od" "$work/op"
    touch "$work/od" "$work/op"
    told=$( { /usr/bin/time -f "%e s, %M KB" "$top/htn" translate "$@" 2>&1 || true; } | grep -v 'non-zero' | paste -sd, | sed 's/,/, /')
    echo "$name: $told, $(stat -c %s "$work/od") and $(stat -c %s "$work/op") bytes"
}
for bound in 1 2 4096 65536; do
    for style in adl flat; do
        for checks in leaf atonce; do
            translate "smallest, $style, $checks" "$top/examples/first/domain.hddl" "$top/examples/first/problem.hddl" \
                "$work/od" "$work/op" --bound "$bound" --style "$style" --checks "$checks"
        done
    done
done
for actions in 54 55; do
    {
        echo "(define (domain d) (:task t :parameters ()) (:method m :parameters () :task (t) :subtasks (a0))"
        for ((k = 0; k < actions; k++)); do
            echo " (:action a$k :parameters ())"
        done
        echo ")"
    } >"$work/d"
    echo "(define (problem p) (:domain d) (:htn :subtasks (t)))" >"$work/p"
    translate "$actions actions, flat" "$work/d" "$work/p" "$work/od" "$work/op" --bound 65536 --style flat
done
