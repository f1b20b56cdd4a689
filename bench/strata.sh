#!/usr/bin/env bash
# Times `stratify` and `bound` on three large problems, compiled: writes a program into a temporary copy of the crates
# that it stands on, and proves, builds and runs it there; what those crates have proved and built is copied along.
# Prints a line a case: the least microseconds of some runs, of the strata and of the bound, and the bound. Where
# valgrind is at hand, two lines more: the instructions of one call in each case, of the strata and of the bound.
#
# Measured, in the order of the cases: the strata 5.4, 3.8 and 192 million instructions, the bound 21, 81 and 256
# million; on four processors at a load of 15 the strata 0.9, 0.4 and 96 milliseconds, the bound 2.4, 23 and 98, and
# at a load of 6 the second case 0.6 and 18.
set -e
top=$(cd "$(dirname "$0")/.." && pwd)
copy=$(mktemp -d)
trap 'rm -rf "$copy"' EXIT
bench="$copy/crates/strata_bench"
mkdir -p "$bench/src" "$bench/specs" "$bench/proofs"
for crate in htn_base text_forms plan_model slot_machine plan_texts bound_calc; do
    cp -a "$top/crates/$crate" "$copy/crates/"
    grep "^$crate:" "$top/crates.txt" >>"$copy/crates.txt"
done
echo "strata_bench: htn_base plan_model slot_machine bound_calc" >>"$copy/crates.txt"
cp "$top/HANDLES" "$copy/"
# the test that a problem is such as both calls ask for serves here too
rows="$top/crates/printed_rows"
cp "$rows/src/ready.rt" "$bench/src/"
cp "$rows/specs/Ready.antt" "$bench/specs/"
cp -r "$rows/proofs/ready" "$rows/proofs/Readiness.antt" "$bench/proofs/"
echo 'pub mod Ready' >"$bench/specs/Lib.antt"
echo 'pub mod Readiness' >"$bench/proofs/Lib.antt"
find "$bench" -type f -exec sed -i 's/printed_rows\./strata_bench./' {} +
cat >"$bench/src/main.rt" <<'E'
#![tactic(auto)]

ghost use Rattle.bound_calc.specs.stratifier.Stratified.{IsStratified};
ghost use Rattle.strata_bench.specs.Ready.{AreReady};

mod ready;

use crate::ready::are_ready;
use bound_calc::bound;
use bound_calc::stratifier::{Ranks, stratify};
use htn_base::{List, Memory, Name, WordList};
use plan_model::{
    Child, Compiled, Facts, Formula, Hddl, Head, MethodPlan, MethodSchema, Pair, TaskSchema, Types,
};
use std::alloc::Global;
use std::io;
use std::rt::Clock;
use std::time::Instant;

/// How often each call is made.
const RUNS: u32 = 10;

fn schema(alloc: Global, task: u32, children: List<Child>, pairs: List<Pair>) -> MethodSchema {
    MethodSchema {
        name: Name { number: 0 },
        params: List::new(alloc),
        task,
        task_args: List::new(alloc),
        pre: Formula::And(List::new(alloc)),
        children,
        pairs,
        constraints: List::new(alloc),
    }
}

/// A method whose line has the children by their numbers.
fn plan(alloc: Global, schema: MethodSchema, line: List<u32>) -> MethodPlan {
    MethodPlan {
        schema,
        checked: false,
        tested: false,
        line,
        heir: None,
        copiers: List::new(alloc),
        guards: List::new(alloc),
    }
}

/// So many tasks, and these methods.
fn problem(alloc: Global, tasks: List<TaskSchema>, methods: List<MethodPlan>) -> Compiled {
    let types = Types {
        names: List::new(alloc),
        parents: List::new(alloc),
        unions: List::new(alloc),
    };
    let hddl = Hddl {
        names: WordList::new(alloc),
        domain: Name { number: 0 },
        problem: Name { number: 0 },
        types,
        objects: List::new(alloc),
        predicates: List::new(alloc),
        tasks,
        actions: List::new(alloc),
        methods: List::new(alloc),
        top: schema(alloc, 0, List::new(alloc), List::new(alloc)),
        init: Facts::new(alloc),
        goal: Formula::And(List::new(alloc)),
    };
    Compiled { hddl, methods }
}

fn tasks(alloc: Global, count: u32) -> Result<List<TaskSchema>, Memory> {
    let mut tasks = List::new(alloc);
    for number in 0..count {
        tasks.push(TaskSchema {
            name: Name { number },
            params: List::new(alloc),
        })?;
    }
    Ok(tasks)
}

fn children(alloc: Global, heads: &[Head]) -> Result<List<Child>, Memory> {
    let mut children = List::new(alloc);
    for head in heads {
        children.push(Child {
            id: None,
            head: *head,
            args: List::new(alloc),
        })?;
    }
    Ok(children)
}

fn line(alloc: Global, count: u32) -> Result<List<u32>, Memory> {
    let mut line = List::new(alloc);
    for child in 0..count {
        line.push(child)?;
    }
    Ok(line)
}

/// Puts a method of these children to the others. Each pair is of a child and a later one.
fn add(
    alloc: Global,
    methods: &mut List<MethodPlan>,
    task: u32,
    heads: &[Head],
    pairs: List<Pair>,
) -> Result<(), Memory> {
    if heads.len() > 4097 {
        return Ok(());
    }
    let line = line(alloc, heads.len() as u32)?;
    let children = children(alloc, heads)?;
    methods.push(plan(alloc, schema(alloc, task, children, pairs), line))
}

/// The first three of four children before the last.
fn last_of_four(alloc: Global) -> Result<List<Pair>, Memory> {
    let mut pairs = List::new(alloc);
    for first in 0..3 {
        pairs.push(Pair { first, then: 3 })?;
    }
    Ok(pairs)
}

/// Method `k` of a task among 1,000, in groups of ten: an action, two tasks of the next group, and last a task of its own.
fn heads(task: u32, k: u32) -> [Head; 4] {
    let task = task % 1000;
    let k = k % 4;
    let group = task / 10 * 10;
    let own = Head::Task(group + (task * 7 + k) % 10);
    if group < 990 {
        let one = Head::Task(group + 10 + (task + k) % 10);
        let two = Head::Task(group + 10 + (task * 3 + k + 1) % 10);
        [Head::Action(0), one, two, own]
    } else {
        [Head::Action(0), Head::Action(0), Head::Action(0), own]
    }
}

/// 1,000 tasks with four methods of four children each.
fn many(alloc: Global) -> Result<Compiled, Memory> {
    let mut methods = List::new(alloc);
    add(alloc, &mut methods, 1000, &[Head::Task(0)], List::new(alloc))?;
    for task in 0..1000 {
        for k in 0..4 {
            add(alloc, &mut methods, task, &heads(task, k), last_of_four(alloc)?)?;
        }
    }
    let tasks = tasks(alloc, 1000)?;
    Ok(problem(alloc, tasks, methods))
}

fn step(state: u64) -> u64 {
    state
        .wrapping_mul(6364136223846793005)
        .wrapping_add(1442695040888963407)
}

/// Some 100,000 random pairs of 4,096 children, each of a child and a later one.
fn random_pairs(alloc: Global) -> Result<List<Pair>, Memory> {
    let mut pairs = List::new(alloc);
    let mut state = 88172645463325252;
    for _ in 0..100_000 {
        state = step(state);
        let first = ((state >> 33) % 4096) as u32;
        state = step(state);
        let then = ((state >> 33) % 4096) as u32;
        if first != then {
            pairs.push(Pair {
                first: first.min(then),
                then: first.max(then),
            })?;
        }
    }
    Ok(pairs)
}

/// One method of 4,096 children, each a task of its own.
fn wide(alloc: Global) -> Result<Compiled, Memory> {
    let mut heads = Vec::new(alloc);
    for task in 0..4096 {
        heads.push(Head::Task(task))?;
    }
    let mut methods = List::new(alloc);
    add(alloc, &mut methods, 4096, heads.as_slice(), random_pairs(alloc)?)?;
    let tasks = tasks(alloc, 4096)?;
    Ok(problem(alloc, tasks, methods))
}

/// 100,000 tasks, each of which calls the next alone.
fn chain(alloc: Global) -> Result<Compiled, Memory> {
    let mut methods = List::new(alloc);
    add(alloc, &mut methods, 100_000, &[Head::Task(0)], List::new(alloc))?;
    for task in 0..99_999 {
        add(alloc, &mut methods, task, &[Head::Task(task + 1)], List::new(alloc))?;
    }
    let tasks = tasks(alloc, 100_000)?;
    Ok(problem(alloc, tasks, methods))
}

fn strata_micros<R: Clock>(rt: &R, alloc: Global, c: &Compiled) -> io::Result<u128>
    requires ready { AreReady c.now }
{
    let start = Instant::now(rt)?;
    let made = stratify(alloc, c);
    let taken = start.elapsed(rt);
    drop(made);
    Ok(taken?.as_micros())
}

fn bound_micros<R: Clock>(rt: &R, alloc: Global, c: &Compiled, ranks: &Ranks) -> io::Result<u128>
    requires ready { AreReady c.now }
    requires strata { IsStratified c.now ranks.now }
{
    let start = Instant::now(rt)?;
    let made = bound(alloc, c, ranks);
    let taken = start.elapsed(rt)?;
    match made {
        Ok(_) => Ok(taken.as_micros()),
        Err(_) => Ok(u128::MAX),
    }
}

fn print_bound<R: Print + Clock>(
    rt: &R,
    alloc: Global,
    c: &Compiled,
    ranks: &Ranks,
) -> io::Result<()>
    requires ready { AreReady c.now }
    requires strata { IsStratified c.now ranks.now }
{
    let mut least = u128::MAX;
    for _ in 0..RUNS {
        least = least.min(bound_micros(rt, alloc, c, ranks)?);
    }
    match bound(alloc, c, ranks) {
        Ok(number) => println!(rt; "bound {least} us ({number})"),
        Err(_) => println!(rt; "no bound"),
    }
}

fn print_times<R: Print + Clock>(rt: &R, alloc: Global, name: &str, c: &Compiled) -> io::Result<()>
    requires ready { AreReady c.now }
{
    let mut least = u128::MAX;
    for _ in 0..RUNS {
        least = least.min(strata_micros(rt, alloc, c)?);
    }
    print!(rt; "{name}: strata {least} us, ")?;
    match stratify(alloc, c) {
        Ok(ranks) => {
            let told = print_bound(rt, alloc, c, &ranks);
            drop(ranks);
            told
        }
        Err(error) => {
            drop(error);
            println!(rt; "no strata")
        }
    }
}

fn time<R: Print + Clock>(
    rt: &R,
    alloc: Global,
    name: &str,
    made: Result<Compiled, Memory>,
) -> io::Result<()> {
    let Ok(c) = made else {
        return println!(rt; "{name}: no memory");
    };
    let told = if let Ok(true) = are_ready(alloc, &c) {
        print_times(rt, alloc, name, &c)
    } else {
        println!(rt; "{name}: not as it should be")
    };
    drop(c);
    told
}

fn main(rt: HostRuntime) -> io::Result<()> {
    let alloc = rt.alloc();
    time(&rt, alloc, "1,000 tasks, 4,000 methods", many(alloc))?;
    time(&rt, alloc, "4,096 subtasks, 100,000 random pairs", wide(alloc))?;
    time(&rt, alloc, "chain of 100,000 tasks", chain(alloc))
}
E
cd "$copy/crates/strata_bench"
rt run >"$copy/log" 2>&1 || { cat "$copy/log"; exit 1; }
grep ' us' "$copy/log"

# each case makes RUNS + 1 calls of both, and each call is counted apart
counted() {
    valgrind --tool=callgrind --collect-atstart=no --toggle-collect="$2" --dump-after="$2" \
        --callgrind-out-file="$copy/calls" ./out/strata_bench >"$copy/log" 2>&1
    echo "$1:" $(for call in 1 12 23; do sed -n 's/^summary: //p' "$copy/calls.$call"; done) instructions
    rm -f "$copy"/calls*
}
if command -v valgrind >/dev/null; then
    counted strata bound_calc::stratifier::ranks::stratify
    counted bound bound_calc::groups::bound
fi
