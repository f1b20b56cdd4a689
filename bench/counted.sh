#!/usr/bin/env bash
# Counts the instructions of the whole program, which no load of the machine disturbs, from files to files: 400 tasks, methods and
# actions at one slot; the smallest problem at 65,536 slots in style adl; 54 actions at 65,536 slots in style flat; Transport with
# 2,000 packages at 4,096 slots; 500 methods of 40 subtasks; 140,000 facts; and `validate` of 50,000 steps (bench/validate.sh has
# the same with a million); `decode` of 25,000 uses of a tail-recursive method, and of the deliveries of 200 packages, and `encode` of
# the trees of both; `make 200`, and of its problem `translate` with 1,024 first-free slots, and, with its deliveries one after the other,
# as a stack of 65,536 cells and of as many as its bound; `bound --level ground` of 100 packages, 10 vehicles and 30 places on a ring,
# and of a counter; and `prune` of 2,000 tasks with four methods each, half of which are kept (at most 160 million are asked for). Wants ./htn, as
# examples/transport/run leaves it, and valgrind. A line each: the instructions.
#
# Counted, in the order of the cases, millions: 19.7, 99.0, 757.1, 419.6, 305.1, 284.7, 215.3, 230.9, 22.2, 279.3, 28.1, 31.2, 129.2,
# 115.5, 6.0, 3622.3, 62.8, 125.6, 127.8.
# Above what is asked for: a stack of 65,536 cells (80), whose words are made, looked up and printed one by one, the ring (2,700), and
# `make 200` (15).
set -euo pipefail
top=$(cd "$(dirname "$0")/.." && pwd)
work=$(mktemp -d)
trap 'rm -rf "$work"' EXIT
transport=$top/examples/transport

counted() {
    local name=$1
    shift
    rm -f "$work/od" "$work/op"
    valgrind --tool=callgrind --callgrind-out-file=/dev/null "$top/htn" "$@" >"$work/log" 2>&1 || true
    echo "$name: $(sed -n 's/.*Collected : //p' "$work/log")"
}

{
    echo "(define (domain d)"
    for ((k = 0; k < 400; k++)); do
        echo " (:task t$k :parameters ()) (:method m$k :parameters () :task (t$k) :subtasks (a$k)) (:action a$k :parameters ())"
    done
    echo ")"
} >"$work/tasks"
echo "(define (problem p) (:domain d) (:htn :subtasks (t0)))" >"$work/first_task"
{
    echo "(define (domain d) (:task t :parameters ()) (:method m :parameters () :task (t) :subtasks (a0))"
    for ((k = 0; k < 54; k++)); do echo " (:action a$k :parameters ())"; done
    echo ")"
} >"$work/actions"
echo "(define (problem p) (:domain d) (:htn :subtasks (t)))" >"$work/task"
{
    echo "(define (problem many) (:domain transport)"
    echo " (:objects l0 l1 l2 - location v1 v2 - vehicle"
    for ((k = 0; k < 2000; k++)); do echo "  p$k"; done
    echo "  - package)"
    echo " (:htn :parameters () :subtasks (and"
    for ((k = 0; k < 2000; k++)); do echo "  (deliver p$k l1)"; done
    echo "  ))"
    echo " (:init (road l0 l1) (road l1 l0) (road l1 l2) (road l2 l1) (at v1 l0) (at v2 l2)"
    for ((k = 0; k < 2000; k++)); do echo "  (at p$k l0)"; done
    echo " ))"
} >"$work/packages"
{
    echo "(define (domain d) (:predicates (q ?x)) (:action a :parameters (?x) :precondition (q ?x) :effect (not (q ?x)))"
    for ((k = 0; k < 500; k++)); do
        echo " (:task t$k :parameters (?x))"
        echo " (:method m$k :parameters (?x) :task (t$k ?x) :subtasks (and"
        for ((j = 0; j < 39; j++)); do echo "  (a ?x)"; done
        if ((k > 0)); then echo "  (t$((k - 1)) ?x)"; else echo "  (a ?x)"; fi
        echo "  ))"
    done
    echo ")"
} >"$work/methods"
echo "(define (problem p) (:domain d) (:objects o) (:htn :subtasks (t499 o)) (:init (q o)))" >"$work/last_task"
{
    echo "(define (problem facts) (:domain transport)"
    echo " (:objects l0 l1 l2 - location v1 v2 - vehicle p1 - package)"
    echo " (:htn :parameters () :subtasks (deliver p1 l1))"
    echo " (:init"
    yes "  (at p1 l0) (at v1 l0) (at v2 l2) (road l0 l1) (road l1 l0) (road l1 l2) (road l2 l1)" | head -n 20000 || true
    echo " ))"
} >"$work/facts"

shortened() {
    perl -pe 's/htn_s(\d+)(?![\w-])/$1/g; s/(?<![?\w-])htn_m_m-via(?![\w-])/m/g; s/(?<![?\w-])drive(?![\w-])/d/g; s/(?<![?\w-])l0(?![\w-])/k/g; s/(?<![?\w-])l1(?![\w-])/l/g; s/(?<![?\w-])v1(?![\w-])/v/g' "$1"
}
shortened "$transport/expected/domain.pddl" >"$work/domain"
shortened "$transport/expected/problem.pddl" >"$work/problem"
shortened "$transport/plan" >"$work/short"
{
    head -n 14 "$work/short"
    yes '(m 6 4 v k l l)
(d 4 v k l)
(m 6 4 v l k l)
(d 4 v l k)' | head -n 50000 || true
    tail -n +15 "$work/short"
} >"$work/plan"

echo "(define (domain d) (:task t :parameters ()) (:method m :parameters () :task (t) :ordered-subtasks (and (a) (t))) (:method e :parameters () :task (t) :subtasks ()) (:action a :parameters ()))" >"$work/uses_domain"
{
    echo "(htn_start htn_s1)"
    yes '(htn_m_m htn_s1 htn_s2)
(a htn_s2)' | head -n 50000 || true
    echo "(htn_m_e htn_s1)"
} >"$work/uses"
{
    echo "(define (problem made) (:domain transport)"
    echo " (:objects l0 l1 l2 - location v1 v2 - vehicle"
    for ((k = 1; k <= 200; k++)); do echo "  p$k"; done
    echo "  - package)"
    echo " (:htn :parameters () :subtasks (and"
    for ((k = 1; k <= 200; k++)); do echo "  (deliver p$k l1)"; done
    echo "  ))"
    echo " (:init (road l0 l1) (road l1 l0) (road l1 l2) (road l2 l1) (at v1 l0) (at v2 l2)"
    for ((k = 1; k <= 200; k++)); do echo "  (at p$k l0)"; done
    echo " ))"
} >"$work/made"
{
    echo "(htn_start htn_s1 $(seq -f 'htn_s%g' -s ' ' 2 200))"
    for ((k = 1; k <= 200; k++)); do
        h=htn_s$((k % 200 + 1))
        echo "(htn_m_m-deliver $h htn_s201 htn_s202 htn_s203 v1 p$k l0 l1)"
        if ((k > 1)); then echo "(htn_m_m-via htn_s201 htn_s204 v1 l1 l0 l0) (drive htn_s204 v1 l1 l0)"; fi
        echo "(htn_m_m-there htn_s201 v1 l0) (htn_c_m-there htn_s201 v1 l0) (pick-up htn_s202 v1 l0 p$k)"
        echo "(htn_m_m-via htn_s203 htn_s201 v1 l0 l1 l1) (drive htn_s201 v1 l0 l1)"
        echo "(htn_m_m-there htn_s203 v1 l1) (htn_c_m-there htn_s203 v1 l1) (drop $h v1 l1 p$k)"
    done
} >"$work/made_plan"

counted "400 tasks at one slot" translate "$work/tasks" "$work/first_task" "$work/od" "$work/op" --bound 1
counted "smallest at 65,536 slots, adl" translate "$top/examples/first/domain.hddl" "$top/examples/first/problem.hddl" "$work/od" "$work/op" --bound 65536
counted "54 actions at 65,536 slots, flat" translate "$work/actions" "$work/task" "$work/od" "$work/op" --bound 65536 --style flat
counted "2,000 packages" translate "$transport/domain.hddl" "$work/packages" "$work/od" "$work/op" --bound 4096
counted "500 methods of 40 subtasks" translate "$work/methods" "$work/last_task" "$work/od" "$work/op" --bound 4096
counted "140,000 facts" translate "$transport/domain.hddl" "$work/facts" "$work/od" "$work/op"
counted "validate of 50,000 steps" validate "$work/domain" "$work/problem" "$work/plan"
counted "decode of 25,000 uses, 50,002 steps" decode "$work/uses_domain" "$work/task" "$work/uses"
counted "decode of 200 packages, 2,199 steps" decode "$transport/domain.hddl" "$work/made" "$work/made_plan" --bound 204

"$top/htn" decode "$work/uses_domain" "$work/task" "$work/uses" >"$work/uses_tree"
counted "encode of 25,000 uses, 50,001 lines" encode "$work/uses_domain" "$work/task" "$work/uses_tree"
"$top/htn" decode "$transport/domain.hddl" "$work/made" "$work/made_plan" --bound 204 >"$work/made_tree"
counted "encode of 200 packages" encode "$transport/domain.hddl" "$work/made" "$work/made_tree"
counted "make 200" make 200 "$work/od" "$work/op"
{
    echo "(define (problem made) (:domain transport) (:objects l0 l1 - location v1 - vehicle $(seq -f 'p%g' -s ' ' 200) - package)"
    echo " (:htn :subtasks (and $(seq -f '(deliver p%g l1)' -s ' ' 200)))"
    echo " (:init (road l0 l1) (road l1 l0) (at v1 l0) $(seq -f '(at p%g l0)' -s ' ' 200)))"
} >"$work/made_200"
counted "translate of made 200, first-free slots, at most 190 million asked" translate "$transport/domain.hddl" "$work/made_200" "$work/od" "$work/op" --bound 1024 --slots first
sed 's/:subtasks/:ordered-subtasks/' "$work/made_200" >"$work/made_200_ordered"
counted "translate of made 200, ordered, a stack of 65,536 cells, at most 80 million asked" translate "$transport/domain.hddl" "$work/made_200_ordered" "$work/od" "$work/op" --bound 65536 --form stack
counted "translate of made 200, ordered, a stack of 204 cells" translate "$transport/domain.hddl" "$work/made_200_ordered" "$work/od" "$work/op" --form stack

{
    echo "(define (problem ring) (:domain transport)"
    echo " (:objects"
    for ((k = 0; k < 30; k++)); do echo "  l$k"; done
    echo "  - location"
    for ((k = 0; k < 10; k++)); do echo "  v$k"; done
    echo "  - vehicle"
    for ((k = 0; k < 100; k++)); do echo "  p$k"; done
    echo "  - package)"
    echo " (:htn :parameters () :subtasks (and"
    for ((k = 0; k < 100; k++)); do echo "  (deliver p$k l$((k % 30)))"; done
    echo "  ))"
    echo " (:init"
    for ((k = 0; k < 30; k++)); do echo "  (road l$k l$(((k + 1) % 30))) (road l$(((k + 1) % 30)) l$k)"; done
    for ((k = 0; k < 10; k++)); do echo "  (at v$k l$k)"; done
    for ((k = 0; k < 100; k++)); do echo "  (at p$k l$((k * 7 % 30)))"; done
    echo " ))"
} >"$work/ring"
counted "bound over what is reached, 300,000 ground methods" bound "$transport/domain.hddl" "$work/ring" --level ground

{
    echo "(define (domain counter) (:predicates (val ?x) (next ?x ?y)) (:task count :parameters ())"
    echo " (:method up :parameters (?x ?y) :task (count) :precondition (and (val ?x) (next ?x ?y)) :ordered-subtasks (and (inc ?x ?y) (count)))"
    echo " (:method stop :parameters () :task (count) :subtasks ())"
    echo " (:action inc :parameters (?x ?y) :precondition (and (val ?x) (next ?x ?y)) :effect (and (not (val ?x)) (val ?y))))"
} >"$work/counter"
# what is reached grows by one number at a time, and so must the work
for numbers in 2000 4000; do
    {
        echo "(define (problem c) (:domain counter) (:objects $(seq -f 'n%g' -s ' ' 0 $numbers)) (:htn :subtasks (count)) (:init (val n0)"
        for ((k = 0; k < numbers; k++)); do echo "  (next n$k n$((k + 1)))"; done
        echo " ))"
    } >"$work/numbers"
    counted "bound over what is reached, a counter to $numbers" bound "$work/counter" "$work/numbers" --level ground
done

{
    echo "(define (domain d) (:predicates (p) (q))"
    for ((k = 0; k < 2000; k++)); do
        echo " (:task t$k :parameters ()) (:action a$k :parameters () :precondition (p) :effect (p))"
        for ((m = 0; m < 4; m++)); do
            # two of four methods ask for what nothing adds, or for a task that cannot be done
            if ((m == 3)); then pre="(q)"; else pre="(p)"; fi
            next=$(((k + m + 1) % 2000))
            if ((m == 0)); then rest="(a$k)"; elif ((m == 2)); then rest="(a$k) (dead)"; else rest="(a$k) (t$next)"; fi
            echo " (:method m$k-$m :parameters () :task (t$k) :precondition $pre :ordered-subtasks (and $rest))"
        done
    done
    echo " (:task dead :parameters ()) (:method d :parameters () :task (dead) :subtasks (dead)))"
} >"$work/schemas"
echo "(define (problem p) (:domain d) (:htn :subtasks (t0)) (:init (p)))" >"$work/schemas_problem"
counted "prune of 2,000 tasks and 8,000 methods" prune "$work/schemas" "$work/schemas_problem" "$work/od" "$work/op"
