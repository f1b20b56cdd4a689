#!/usr/bin/env bash
# Times `Order::new` on 4,097 children, compiled: writes a program into a temporary copy of the crates that it stands
# on, and proves, builds and runs it there. Prints a line a case: pairs, milliseconds, and in brackets the length of
# the line or the place of the pair that closes a cycle.
set -e
top=$(cd "$(dirname "$0")/.." && pwd)
copy=$(mktemp -d)
trap 'rm -rf "$copy"' EXIT
mkdir -p "$copy/crates/order_bench/src"
for crate in htn_base plan_model; do
    cp -r "$top/crates/$crate" "$copy/crates/"
    grep "^$crate:" "$top/crates.txt" >>"$copy/crates.txt"
done
echo "order_bench: htn_base plan_model" >>"$copy/crates.txt"
cp "$top/HANDLES" "$copy/"
cat >"$copy/crates/order_bench/src/main.rt" <<'E'
#![tactic(auto)]

ghost use Rattle.std.specs.Prelude.{◌<◌, All};

use plan_model::Pair;
use plan_model::net_order::{Order, OrderError};
use std::alloc::{AllocError, Global};
use std::io;
use std::rt::Clock;
use std::time::Instant;

const COUNT: u32 = 4097;

#[derive(Drop)]
struct Pairs {
    items: Vec<Pair>,
    ghost below: { All (λ p. (p.first < 4097) × (p.then < 4097)) items.items },
}

impl Pairs {
    fn new(alloc: Global) -> Pairs {
        Pairs {
            items: Vec::new(alloc),
        }
    }

    fn push(&mut self, first: u32, then: u32) -> Result<(), AllocError> {
        self.items.push(Pair {
            first: first % COUNT,
            then: then % COUNT,
        })?;
        Ok(())
    }
}

fn chain(alloc: Global, up: bool) -> Result<Pairs, AllocError> {
    let mut pairs = Pairs::new(alloc);
    for i in 0..COUNT - 1 {
        if up {
            pairs.push(i, i + 1)?;
        } else {
            pairs.push(i + 1, i)?;
        }
    }
    Ok(pairs)
}

/// All pairs of a total order, upwards or downwards, for each child the nearest or the farthest first.
fn total(alloc: Global, up: bool, near: bool) -> Result<Pairs, AllocError> {
    let mut pairs = Pairs::new(alloc);
    for j in 0..COUNT {
        for d in 0..j {
            let i = if near { j - 1 - d } else { d };
            if up {
                pairs.push(i, j)?;
            } else {
                pairs.push(COUNT - 1 - i, COUNT - 1 - j)?;
            }
        }
    }
    Ok(pairs)
}

fn step(state: u64) -> u64 {
    state
        .wrapping_mul(6364136223846793005)
        .wrapping_add(1442695040888963407)
}

fn random(alloc: Global, number: u32, up: bool) -> Result<Pairs, AllocError> {
    let mut pairs = Pairs::new(alloc);
    let mut state = 88172645463325252;
    for _ in 0..number {
        state = step(state);
        let a = ((state >> 33) % COUNT as u64) as u32;
        state = step(state);
        let b = ((state >> 33) % COUNT as u64) as u32;
        if a != b {
            if (a < b) == up {
                pairs.push(a, b)?;
            } else {
                pairs.push(b, a)?;
            }
        }
    }
    Ok(pairs)
}

fn closed(pairs: Pairs, first: u32, then: u32) -> Result<Pairs, AllocError> {
    let mut pairs = pairs;
    pairs.push(first, then)?;
    Ok(pairs)
}

fn time<R: Print + Clock>(rt: &R, alloc: Global, name: &str, pairs: Pairs) -> io::Result<()> {
    if pairs.items.len() >= 1 << 32 {
        return Ok(());
    }
    let number = pairs.items.len();
    let start = Instant::now(rt)?;
    let made = Order::new(alloc, COUNT, pairs.items.as_slice());
    let taken = start.elapsed(rt)?;
    let told = match made {
        Ok(order) => order.line().len() as u64,
        Err(OrderError::Cycle { pair }) => pair as u64,
        Err(OrderError::Memory) => 0,
    };
    let spent = taken.as_millis();
    println!(rt; "{name}: {number} pairs, {spent} ms ({told})")
}

fn orders<R: Print + Clock>(rt: &R, alloc: Global) -> io::Result<()> {
    time(rt, alloc, "no pairs", Pairs::new(alloc))?;
    time(rt, alloc, "chain", chain(alloc, true)?)?;
    time(rt, alloc, "chain, downwards", chain(alloc, false)?)?;
    time(rt, alloc, "total, nearest first", total(alloc, true, true)?)?;
    time(rt, alloc, "total, farthest first", total(alloc, true, false)?)?;
    time(rt, alloc, "total, downwards", total(alloc, false, false)?)?;
    time(rt, alloc, "random", random(alloc, 100_000, true)?)?;
    time(rt, alloc, "random, downwards", random(alloc, 100_000, false)?)
}

fn cycles<R: Print + Clock>(rt: &R, alloc: Global) -> io::Result<()> {
    time(rt, alloc, "chain, closed", closed(chain(alloc, true)?, COUNT - 1, 0)?)?;
    time(rt, alloc, "random, closed", closed(random(alloc, 100_000, true)?, COUNT - 1, 0)?)?;
    time(rt, alloc, "random, downwards, closed", closed(random(alloc, 100_000, false)?, 0, COUNT - 1)?)?;
    time(rt, alloc, "total, closed", closed(total(alloc, true, true)?, COUNT - 1, 0)?)?;
    time(rt, alloc, "total, downwards, closed", closed(total(alloc, false, true)?, 0, COUNT - 1)?)?;
    time(rt, alloc, "chain, downwards, closed", closed(chain(alloc, false)?, 0, COUNT - 1)?)
}

fn main(rt: HostRuntime) -> io::Result<()> {
    let alloc = rt.alloc();
    orders(&rt, alloc)?;
    cycles(&rt, alloc)
}
E
cd "$copy/crates/order_bench"
rt run >"$copy/log" 2>&1 || { cat "$copy/log"; exit 1; }
grep ' ms (' "$copy/log"
