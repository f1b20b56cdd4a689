#!/usr/bin/env bash
# Refuses each allocation of each command in turn, of the program as it is shipped: translate, bound, decode, encode, validate, prune and make, over
# the smallest example, a tail-recursive problem and one with a free variable, whose texts are made here. bench/refused_memory.py says how it is
# done, and what each run must leave. Wants ./htn, as examples/transport/run leaves it, or HTN, and a C compiler. Two lines for each run; ends
# with 1 where one of them was answered otherwise. With a number it then lets each allocation up to that one of the test `want_of_memory` of
# public_program fail, which takes half a minute each: after want of memory in a step the run is as it was.
#
# Counted: 18 runs of 2,156 to 2,586 allocations, and, later, `make 1` of 3,255; all with status 0 where there is memory. Without make 83,178
# refusals in the two turns: 82,842 told `out of memory`, 318 told nothing (the allocations of the arguments), 18 were survived (one in each
# run, refused alone), and none was answered otherwise. None came behind the first put. In four processor minutes.
# Later, over the smallest alone, 12 runs, with level ground, first-free slots and a stack too: none was answered otherwise.
set -eu
bench=$(cd "$(dirname "$0")" && pwd)
htn=$(realpath "${HTN:-$bench/../htn}")
work=$(mktemp -d)
trap 'rm -rf "$work"' EXIT
mkdir "$work/smallest" "$work/tail-recursive" "$work/free-variable"

cp "$bench/../examples/first/domain.hddl" "$work/smallest/d"
cp "$bench/../examples/first/problem.hddl" "$work/smallest/p"
echo "(htn_start htn_s1) (htn_m_m htn_s1) (a htn_s1)" >"$work/smallest/plan"
echo "(htn_start htn_s1) (htn_m_m htn_s1) (a htn_s0 htn_s1)" >"$work/smallest/stacked"
printf '%s\n' '==>' '0 a' 'root 1' '1 t -> m 0' '<==' >"$work/smallest/hplan"

cat >"$work/tail-recursive/d" <<'TEXT'
(define (domain d)
 (:task t :parameters ())
 (:method m1 :parameters () :task (t) :ordered-subtasks (and (a) (t)))
 (:method m0 :parameters () :task (t) :subtasks ())
 (:action a :parameters ()))
TEXT
cp "$work/smallest/p" "$work/tail-recursive/p"
echo "(htn_start htn_s1) (htn_m_m1 htn_s1 htn_s2) (a htn_s2) (htn_m_m0 htn_s1)" >"$work/tail-recursive/plan"
echo "(htn_start htn_s1) (htn_m_m1 htn_s1 htn_s2) (a htn_s1 htn_s2) (htn_m_m0 htn_s0 htn_s1)" >"$work/tail-recursive/stacked"
printf '%s\n' '==>' '0 a' 'root 1' '1 t -> m1 0 2' '2 t -> m0' '<==' >"$work/tail-recursive/hplan"

cat >"$work/free-variable/d" <<'TEXT'
(define (domain d)
 (:predicates (good ?x))
 (:task t :parameters ())
 (:method m :parameters (?o) :task (t) :precondition (good ?o) :subtasks (a))
 (:action a :parameters ()))
TEXT
echo "(define (problem p) (:domain d) (:objects o1 o2 o3) (:htn :subtasks (t)) (:init (good o2) (good o3)))" >"$work/free-variable/p"
echo "(htn_start htn_s1) (htn_m_m htn_s1 htn_s2 o2) (htn_c_m htn_s2 o2) (a htn_s1)" >"$work/free-variable/plan"
echo "(htn_start htn_s1) (htn_m_m htn_s1 htn_s2 o2) (htn_c_m htn_s1 htn_s2 o2) (a htn_s0 htn_s1)" >"$work/free-variable/stacked"
cp "$work/smallest/hplan" "$work/free-variable/hplan"

failed=0
refused() { HTN=$htn python3 "$bench/refused_memory.py" "$@" || failed=1; }
for example in smallest tail-recursive free-variable; do
    cd "$work/$example"
    echo "$example:"
    "$htn" translate d p pd pp >"$work/log"
    refused translate d p od op
    refused translate d p od op --style flat
    refused translate d p od op --slots first
    refused translate d p od op --form stack
    refused bound d p
    refused bound d p --level ground
    refused decode d p plan
    refused decode d p stacked --form stack
    refused encode d p hplan
    refused encode d p hplan --form stack
    refused validate pd pp plan
    refused prune d p od op
done
cd "$work/smallest"
refused make 1 od op

cd "$bench/../crates/public_program"
for number in $(seq "${1:-0}"); do
    if ! told=$(rt try --test --fail-alloc "$number" -- want_of_memory 2>&1); then
        echo "at allocation $number of the test: $told"
        failed=1
    fi
done
exit $failed
