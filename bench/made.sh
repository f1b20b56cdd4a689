#!/usr/bin/env bash
# Makes the problem of K packages for K = 1, 1 + STEP, .. up to 819, and for 819: `bench/made.sh [STEP]`, STEP 1 if none is given. For each K
# the texts of domain, problem and hierarchical plan are written here, by another program than htn, and compared:
# - `make K` tells the numbers of the formulas: packages K, actions 8, bound 5K, width K + 3, steps 11K - 1;
# - it writes what `translate` prints of the two texts, whose computed bound is 5K;
# - `encode` of the plan has this width and this number of steps;
# - `decode` of these steps, with as many slots as that, gives the plan again, byte for byte.
# And 820 packages are refused for their 4,100 slots. Wants ./htn, as examples/transport/run leaves it, or HTN. Stops at the first K with a
# difference.
set -Eeuo pipefail
trap 'echo "not as it should be with $k packages"' ERR
top=$(cd "$(dirname "$0")/.." && pwd)
htn=$(realpath "${HTN:-$top/htn}")
step=${1:-1}
work=$(mktemp -d)
trap 'rm -rf "$work"' EXIT
cd "$work"
domain=$top/examples/transport/domain.hddl

problem() {
    awk -v k="$1" 'BEGIN {
        for (i = 1; i <= k; i++) {
            packages = packages " p" i
            tasks = tasks " (deliver p" i " l1)"
            places = places " (at p" i " l0)"
        }
        print "(define (problem made) (:domain transport) (:objects l0 l1 - location v1 - vehicle" packages " - package)" \
            " (:htn :subtasks (and" tasks ")) (:init (road l0 l1) (road l1 l0) (at v1 l0)" places "))"
    }'
}

# p1 to pK one after the other; the truck is at l0 for the first, and drives there for each other
plan() {
    awk -v k="$1" '
    function act(line) { print acts++ " " line }
    function task(line) { nodes = nodes tasks++ " " line "\n" }
    function there(at) { task("get-to v1 " at " -> m-there") }
    # the drive is the next act, and what is left of the way the next task
    function way(from, to) { task("get-to v1 " to " -> m-via " acts " " tasks + 1); act("drive v1 " from " " to); there(to) }
    BEGIN {
        acts = 0
        tasks = 4 * k - 1
        print "==>"
        for (i = 1; i <= k; i++) {
            root = root " " tasks
            away = i > 1
            task("deliver p" i " l1 -> m-deliver " tasks + 1 " " acts + away " " tasks + 2 + away " " acts + away + 2)
            if (away) way("l1", "l0"); else there("l0")
            act("pick-up v1 l0 p" i)
            way("l0", "l1")
            act("drop v1 l1 p" i)
        }
        print "root" root
        printf "%s", nodes
        print "<=="
    }'
}

# compares what htn makes, translates, encodes and decodes with these texts
made() {
    local width=$((k + 3)) steps=$((11 * k - 1))
    "$htn" make "$k" od op >told
    printf 'packages %s\nactions 8\nbound %s\nwidth %s\nsteps %s\n' "$k" $((5 * k)) "$width" "$steps" | diff - told
    problem "$k" >p
    plan "$k" >tree
    [ "$("$htn" translate "$domain" p d2 p2)" = "slots $((5 * k))" ]
    cmp od d2
    cmp op p2
    "$htn" encode "$domain" p tree >steps
    [ "$(head -n 1 steps)" = "; slots $width" ]
    [ "$(tail -n +2 steps | wc -l)" = "$steps" ]
    "$htn" decode "$domain" p steps --bound "$width" | cmp - tree
}

numbers=$(seq 1 "$step" 819)
[ "$(tail -n 1 <<<"$numbers")" = 819 ] || numbers+=$'\n819'
for k in $numbers; do
    made
done
k=820
status=0
"$htn" make "$k" od op 2>told || status=$?
[ "$status $(cat told)" = "7 limit slots 4100" ]
echo "$(wc -w <<<"$numbers") numbers of packages up to 819, and 820: as they should be"
