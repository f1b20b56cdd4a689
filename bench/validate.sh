#!/usr/bin/env bash
# Times `validate` from files to its line on a plan of 999,998 steps of the printed texts of examples/transport: the plan of that folder, with a
# vehicle that drives to and fro as often as a million steps allow before it goes on. The names in the texts and the plan are shortened, so that
# the plan keeps within 16 MiB. Wants ./htn, as examples/transport/run leaves it. A line: what the program told, seconds of the best of five runs
# and its processor seconds (user and system), kilobytes of memory at most, and the bytes of the three texts.
#
# Measured with the provers of the machine stopped: 0.27 s, 17,964 kilobytes, 14,005,419 bytes read; in the same minutes the program took 0.35
# before deletions under a quantifier went from number to number. On another day's machine that program took 0.64, 0.92 before literals were
# looked for from number to number, and 1.71 before effects without conditions were passed over in place. bench/counted.sh has instructions.
# A printed action's quantifiers range over 15 slots.
set -euo pipefail
top=$(cd "$(dirname "$0")/.." && pwd)
work=$(mktemp -d)
trap 'rm -rf "$work"' EXIT
folder=$top/examples/transport

shortened() {
    perl -pe 's/htn_s(\d+)(?![\w-])/$1/g; s/(?<![?\w-])htn_m_m-via(?![\w-])/m/g; s/(?<![?\w-])drive(?![\w-])/d/g; s/(?<![?\w-])l0(?![\w-])/k/g; s/(?<![?\w-])l1(?![\w-])/l/g; s/(?<![?\w-])v1(?![\w-])/v/g' "$1"
}

to_and_fro() {
    yes '(m 6 4 v k l l)
(d 4 v k l)
(m 6 4 v l k l)
(d 4 v l k)' | head -n "$1" || true
}

shortened "$folder/expected/domain.pddl" >"$work/domain"
shortened "$folder/expected/problem.pddl" >"$work/problem"
shortened "$folder/plan" >"$work/short"
head -n 14 "$work/short" >"$work/plan"
to_and_fro 999972 >>"$work/plan"
tail -n +15 "$work/short" >>"$work/plan"
best=1000
kilobytes=0
for run in 1 2 3 4 5; do
    /usr/bin/time -o "$work/time" -f "%e %M %U %S" "$top/htn" validate "$work/domain" "$work/problem" "$work/plan" >"$work/told" 2>&1 || true
    read -r seconds memory user system < <(tail -n 1 "$work/time")
    if [ "$(echo "$seconds < $best" | bc)" = 1 ]; then best=$seconds; took="$user + $system"; fi
    if ((memory > kilobytes)); then kilobytes=$memory; fi
done
echo "$(wc -l <"$work/plan") steps: $(cat "$work/told"), $best s (processor: $took s), $kilobytes KB, $(cat "$work/domain" "$work/problem" "$work/plan" | wc -c) bytes read"
