#!/usr/bin/env bash
# Times the whole program from files to files on large texts, each beside a copy of the bytes that it wrote: a problem of Transport
# with 2,000 packages at 4,096 slots, in style adl; 54 actions at 65,536 slots, in style flat, whose texts have 270 MB; a problem
# text of 16 MiB of facts; and a domain of 500 methods with 40 subtasks each. Wants ./htn, as examples/transport/run leaves it. A
# line each: what the program told, seconds of the best of five runs and its processor seconds (user and system), kilobytes of
# memory at most, bytes read and written, and seconds of a copy of what was written.
#
# Measured on an idle machine in two turns within a minute, an earlier program, seconds in the order of the cases: 0.08 and 0.06;
# 0.31 and 0.26; 0.31 and 0.26; 0.05 and 0.04; the best of some dozens of runs of the third and the last, by another script: 0.23
# and 0.037. On the same machine, in a slower hour, the program before that one took 0.10, 0.40, 0.30 and 0.08. With lists of
# terms made with their room, and not those of subtasks, on a machine on which a plain loop takes some three times as long: 0.19,
# 0.63, 0.60 and 0.10; kilobytes: 64,900; 269,588; 43,260; 21,464 (the last 20,472 with lists of subtasks alone, as it is now,
# 20,488 with both, and 21,812 with neither). Where the inputs are small beside the outputs, what is beyond these in memory is
# what any run takes (1,240 kilobytes where it only refuses its words), for 65,536 slots some 65 bytes each, and for the packages
# the problem as read and as compiled and one action of 2,000 children (as massif told of an earlier program). 16 MiB of facts of
# which none stands twice took 56,500 KB, of which the output is 15,400. Figures of different days are not alike.
set -euo pipefail
top=$(cd "$(dirname "$0")/.." && pwd)
work=$(mktemp -d)
trap 'rm -rf "$work"' EXIT
domain=$top/examples/transport/domain.hddl

packages() {
    echo "(define (problem many) (:domain transport)"
    echo " (:objects l0 l1 l2 - location v1 v2 - vehicle"
    for ((k = 0; k < $1; k++)); do echo "  p$k"; done
    echo "  - package)"
    echo " (:htn :parameters () :subtasks (and"
    for ((k = 0; k < $1; k++)); do echo "  (deliver p$k l1)"; done
    echo "  ))"
    echo " (:init (road l0 l1) (road l1 l0) (road l1 l2) (road l2 l1) (at v1 l0) (at v2 l2)"
    for ((k = 0; k < $1; k++)); do echo "  (at p$k l0)"; done
    echo " ))"
}

facts() {
    echo "(define (problem facts) (:domain transport)"
    echo " (:objects l0 l1 l2 - location v1 v2 - vehicle p1 - package)"
    echo " (:htn :parameters () :subtasks (deliver p1 l1))"
    echo " (:init"
    yes "  (at p1 l0) (at v1 l0) (at v2 l2) (road l0 l1) (road l1 l0) (road l1 l2) (road l2 l1)" | head -n "$1" || true
    echo " ))"
}

methods() {
    echo "(define (domain d) (:predicates (q ?x)) (:action a :parameters (?x) :precondition (q ?x) :effect (not (q ?x)))"
    for ((k = 0; k < 500; k++)); do
        echo " (:task t$k :parameters (?x))"
        echo " (:method m$k :parameters (?x) :task (t$k ?x) :subtasks (and"
        for ((j = 0; j < 39; j++)); do echo "  (a ?x)"; done
        if ((k > 0)); then echo "  (t$((k - 1)) ?x)"; else echo "  (a ?x)"; fi
        echo "  ))"
    done
    echo ")"
}

actions() {
    echo "(define (domain d) (:task t :parameters ()) (:method m :parameters () :task (t) :subtasks (a0))"
    for ((k = 0; k < 54; k++)); do echo " (:action a$k :parameters ())"; done
    echo ")"
}

timed() {
    local name=$1 best=1000 kilobytes=0 took
    shift
    for run in 1 2 3 4 5; do
        rm -f "$work/od" "$work/op"
        /usr/bin/time -o "$work/time" -f "%e %M %U %S" "$top/htn" translate "$@" >"$work/told" 2>&1 || true
        read -r seconds memory user system < <(tail -n 1 "$work/time")
        if [ "$(echo "$seconds < $best" | bc)" = 1 ]; then best=$seconds; took="$user + $system"; fi
        if ((memory > kilobytes)); then kilobytes=$memory; fi
    done
    local from to
    from=$(($(stat -c %s "$1") + $(stat -c %s "$2")))
    cat "$work/od" "$work/op" >"$work/whole" 2>/dev/null || true
    to=$(stat -c %s "$work/whole")
    /usr/bin/time -o "$work/time" -f "%e" cp "$work/whole" "$work/copy"
    echo "$name: $(cat "$work/told"), $best s (processor: $took s), $kilobytes KB, $from bytes read, $to written; a copy $(tail -n 1 "$work/time") s"
}

packages 2000 >"$work/p2000"
actions >"$work/actions"
echo "(define (problem p) (:domain d) (:htn :subtasks (t)))" >"$work/task"
facts 187000 >"$work/init"
methods >"$work/methods"
echo "(define (problem p) (:domain d) (:objects o) (:htn :subtasks (t499 o)) (:init (q o)))" >"$work/one"
timed "2,000 packages, adl" "$domain" "$work/p2000" "$work/od" "$work/op" --bound 4096
timed "54 actions, flat" "$work/actions" "$work/task" "$work/od" "$work/op" --bound 65536 --style flat
timed "facts" "$domain" "$work/init" "$work/od" "$work/op"
timed "500 methods of 40 subtasks" "$work/methods" "$work/one" "$work/od" "$work/op" --bound 4096
