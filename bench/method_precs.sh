#!/usr/bin/env bash
# Times a method of 4,096 subtasks, the most that a network may have, compiled: `htn bound` on it, its subtasks in a chain or in no
# order, beside a method of one subtask. Wants ./htn, as examples/transport/run leaves it. Prints a line a case: what the program
# told, and the processor milliseconds of the best of five runs, from files to the line.
set -euo pipefail
top=$(cd "$(dirname "$0")/.." && pwd)
work=$(mktemp -d)
trap 'rm -rf "$work"' EXIT

domain() {
    echo "(define (domain d) (:predicates (q ?x)) (:action a :parameters (?x) :precondition (q ?x) :effect (not (q ?x)))"
    echo " (:task t :parameters (?x))"
    echo " (:method m :parameters (?x) :task (t ?x) :precondition (q ?x) :$1 (and"
    for ((j = 0; j < $2; j++)); do echo "  (a ?x)"; done
    echo "  )))"
}

timed() {
    local best=1000000
    for run in 1 2 3 4 5; do
        /usr/bin/time -o "$work/time" -f "%U %S" "$top/htn" bound "$2" "$work/problem" >"$work/told" 2>&1
        best=$(awk -v best="$best" '{ t = ($1 + $2) * 1000; print (t < best ? t : best) }' "$work/time")
    done
    echo "$1: $(cat "$work/told"), $best ms"
}

echo "(define (problem p) (:domain d) (:objects o) (:htn :subtasks (t o)) (:init (q o)))" >"$work/problem"
domain subtasks 1 >"$work/one"
domain ordered-subtasks 4096 >"$work/chain"
domain subtasks 4096 >"$work/free"
timed "one subtask" "$work/one"
timed "4,096 in a chain" "$work/chain"
timed "4,096 in no order" "$work/free"
