#!/usr/bin/env bash
# Times all from two HDDL texts to two printed texts in memory, compiled, on transport problems in style flat. Writes a program over that of
# `printed_rows` into a temporary copy of the crates, and proves, builds and runs it there. Prints a line for each number of packages and
# of slots: the bytes of the two texts, seconds, and kilobytes of memory at most.
set -euo pipefail
top=$(cd "$(dirname "$0")/.." && pwd)
copy=$(mktemp -d)
trap 'rm -rf "$copy"' EXIT
tar -C "$top" --exclude=out -c crates crates.txt HANDLES | tar -C "$copy" -x
cd "$copy/crates/printed_rows"
rm -rf src/bounds.rt src/cases.rt src/ready.rt specs proofs/ready proofs/Readiness.antt stdout must-fail
echo -n >proofs/Lib.antt
cat >src/main.rt <<'E2'
//! Makes the two texts of the problem in `many.d.hddl` and `many.p.hddl` in style flat, with so many slots as its argument says, and
//! prints how many bytes they have.
#![tactic(auto)]

ghost use Rattle.plan_model.specs.Parts.{AreListed};
ghost use Rattle.problem_texts.specs.ArePrinted.{IsCompiledProblem};

mod rows;
mod running;

use crate::running::{Failure, compiled_source, source_of};
use htn_base::Memory;
use outside_io::DiskFiles;
use plan_model::{Checks, Compiled, Style};
use problem_texts::{Printed, texts_of};
use std::alloc::Global;
use std::{env, io};

/// The greatest length of a printed text, in bytes.
const LONGEST: u64 = 268_435_456;

/// The bytes of the two texts of a compiled problem; of texts that are too long, those of the first such.
fn bytes_of(alloc: Global, compiled: &Compiled, slots: u32) -> Result<u64, Memory>
    requires listed { AreListed compiled.now.hddl.types }
    requires compiled { IsCompiledProblem compiled.now }
{
    match texts_of(alloc, compiled, slots, &Style::Flat, LONGEST)? {
        Printed::Whole(texts) => {
            Ok((texts.domain.len() as u64).saturating_add(texts.problem.len() as u64))
        }
        Printed::TooLong(length) => Ok(length),
    }
}

fn printed(alloc: Global, files: &mut DiskFiles, slots: u32) -> Result<u64, Failure> {
    let source = source_of(alloc, files, "many", "many")?;
    let compiled = compiled_source(alloc, &source, Checks::Leaf)?;
    Ok(bytes_of(alloc, &compiled, slots)?)
}

fn slots(rt: HostRuntime) -> io::Result<u32> {
    let words = env::args(&rt)?.skip(1).collect::<Vec<String>>(rt.alloc())?;
    match words.get(0) {
        Some(word) => Ok(word.parse::<u32>().unwrap_or(1)),
        None => Ok(1),
    }
}

fn main(rt: HostRuntime) -> io::Result<()> {
    let slots = slots(rt)?;
    let mut files = DiskFiles::new(rt);
    match printed(rt.alloc(), &mut files, slots) {
        Ok(bytes) => println!(rt; "{bytes} bytes"),
        Err(failure) => println!(rt; "{failure:?}"),
    }
}
E2
rt run >"$copy/log" 2>&1 || { cat "$copy/log"; exit 1; }
cp data/transport.d.hddl many.d.hddl
problem() {
    python3 - "$1" <<'E3'
import sys
n = int(sys.argv[1])
packages = [f"p{k}" for k in range(1, n + 1)]
print("(define (problem many-packages) (:domain transport)")
print(f" (:objects l0 l1 l2 - location v1 v2 - vehicle {' '.join(packages)} - package)")
print(f" (:htn :parameters () :subtasks (and {' '.join(f'(deliver {p} l1)' for p in packages)}))")
print(" (:init (road l0 l1) (road l1 l0) (road l1 l2) (road l2 l1) (at v1 l0) (at v2 l2)")
print(f"  {' '.join(f'(at {p} l0)' for p in packages)}))")
E3
}
for packages in 3 103; do
    problem "$packages" >many.p.hddl
    for slots in 100 4096 32768; do
        /usr/bin/time -f '%e s, %M KB' -o "$copy/spent" ./out/printed_rows "$slots" >"$copy/told"
        echo "$packages packages, $slots slots: $(cat "$copy/told"), $(cat "$copy/spent")"
    done
done
