#!/usr/bin/env bash
# Times `hplan_text::read` from the bytes to the plan, compiled, on hierarchical plans of nearly 16,777,216 bytes: tasks with three arguments in
# groups of four, each under a method of its own, with a `root` of these; and the shortest lines that there are, `k a`, with a `root` line of all
# ids. Of each the ids stand in order, or mixed: then the lines stand in another order than their ids, and so do the ids of `root` and of each
# method. Writes a program into a temporary copy of the crates that it stands on, and proves, builds and runs it there; what those crates have
# proved and built is copied along. A line a text: bytes, lines, the milliseconds of `read`, the most memory in kilobytes and how many times the
# text that is, and the load of the machine over the last minute; each figure is the least of three runs. Where valgrind is at hand, before that
# the instructions a byte, on an eighth and on the whole. Arguments name the texts that are tried, all where there are none.
#
# Instructions a byte, of the whole: tasks in order 76.7, tasks mixed 79.8, lines in order 88.3, lines mixed 99.5; of an eighth 83.9, 86.6, 94.1
# and 104.8. The most memory: 7.4, 7.4, 10.8 and 10.8 times the text. Milliseconds at loads of 13 to 16: 728, 1,660, 1,010 and 958. Of the
# instructions of tasks in order two fifths are the system's malloc and free, and a fifth is next_line. Before ids stood in one ascending list
# with marks, and words without upper-case letters were copied whole: 144.9, 140.2, 308.2 and 274.8; 144.9, 134.4, 304.0 and 273.7; 7.7, 7.5,
# 11.2 and 10.7 times the text.
set -euo pipefail
top=$(cd "$(dirname "$0")/.." && pwd)
work=$(mktemp -d)
trap 'rm -rf "$work"' EXIT
mkdir -p "$work/crates/hplan_bench/src"
for crate in htn_base text_forms plan_model plan_texts tree_core hplan_text; do
    cp -a "$top/crates/$crate" "$work/crates/"
    grep "^$crate:" "$top/crates.txt" >>"$work/crates.txt"
done
echo 'hplan_bench: htn_base text_forms hplan_text' >>"$work/crates.txt"
cp "$top/HANDLES" "$work/"
cat >"$work/crates/hplan_bench/src/main.rt" <<'PROGRAM'
//! Takes a file: gets its bytes alone (`file`), or reads them as a hierarchical `plan`. Prints the milliseconds of reading.
#![tactic(auto)]

use hplan_text::read;
use htn_base::Fault;
use std::io::{self, ErrorKind, Read};
use std::time::Instant;
use std::{env, fs};
use text_forms::sexpr_text::ReadError;

const LONGEST: u64 = 16_777_216;

fn main(rt: HostRuntime) -> io::Result<()> {
    let words = env::args(&rt)?.skip(1).collect::<Vec<String>>(rt.alloc())?;
    match words.as_slice() {
        [what, name] => time(rt, what, name),
        _ => Err(io::Error::from(ErrorKind::InvalidInput)),
    }
}

fn source(rt: HostRuntime, name: &str) -> io::Result<Vec<u8>> {
    let mut source = Vec::with_capacity(rt.alloc(), 16_777_248)?;
    fs::open(&rt, name)?.take(LONGEST).read_to_end(&mut source)?;
    Ok(source)
}

fn time(rt: HostRuntime, what: &str, name: &str) -> io::Result<()> {
    let text = source(rt, name)?;
    let start = Instant::now(&rt)?;
    if what == "plan" {
        plan(rt, &text)?;
    }
    let taken = start.elapsed(&rt)?.as_millis();
    println!(rt; "{taken}")
}

/// Reads the plan, and drops it.
fn plan(rt: HostRuntime, text: &[u8]) -> io::Result<()> {
    if text.len() > 16_777_216 {
        return Err(io::Error::from(ErrorKind::InvalidData));
    }
    match read(rt.alloc(), text, 0) {
        Ok(_) => Ok(()),
        Err(ReadError::Memory) => Err(io::Error::from(ErrorKind::OutOfMemory)),
        Err(ReadError::Bad(Fault { code, file, at })) => {
            println!(rt; "fault {code} in file {file} at {at}")?;
            Err(io::Error::from(ErrorKind::InvalidData))
        }
    }
}
PROGRAM
cd "$work/crates/hplan_bench"
printf '==>\nroot\n<==\n' >"$work/text"
rt run -- plan "$work/text" >"$work/log" 2>&1 || { cat "$work/log"; exit 1; }
cat >"$work/measure.py" <<'MEASURE'
import os, random, re, shutil, subprocess, sys

LONGEST = 16777216
PROGRAM, TEXT = sys.argv[1:3]
CHOSEN = sys.argv[3:]


def in_order(ids):
    return list(ids)


def mixed(ids):
    ids = list(ids)
    random.Random(1).shuffle(ids)
    return ids


def plan(primitives, root, nodes):
    return "\n".join(["==>", *primitives, " ".join(["root", *map(str, root)]), *nodes, "<==", ""])


def tasks(share, arranged):
    """Groups of four tasks, each of which a method gives, as in a plan of transports."""
    groups = int(share * 63000)
    ids = arranged(range(4 * groups))
    own = arranged(range(4 * groups, 5 * groups))
    children = arranged(range(4 * groups))
    names = ["drive", "pick-up", "drive", "drop"]
    return plan(
        (f"{k} {names[k % 4]} truck-{k % 7} city-loc-{k % 97} city-loc-{k % 89}" for k in ids),
        arranged(own),
        (
            f"{k} deliver package-{k % 100} city-loc-{k % 97} -> m-deliver " + " ".join(map(str, children[4 * i : 4 * i + 4]))
            for i, k in enumerate(own)
        ),
    )


def lines(share, arranged):
    """The shortest lines that there are, all of them listed."""
    ids = arranged(range(int(share * 1000000)))
    return plan((f"{k} a" for k in ids), arranged(ids), [])


TEXTS = {
    "tasks in order": lambda share: tasks(share, in_order),
    "tasks mixed": lambda share: tasks(share, mixed),
    "lines in order": lambda share: lines(share, in_order),
    "lines mixed": lambda share: lines(share, mixed),
}


def written(text):
    if len(text) > LONGEST:
        sys.exit(f"{len(text)} bytes")
    open(TEXT, "w").write(text)
    return len(text)


def counted(what):
    """The instructions of a run."""
    command = ["valgrind", "--tool=callgrind", "--callgrind-out-file=/dev/null", PROGRAM, what, TEXT]
    done = subprocess.run(command, capture_output=True, text=True)
    if done.returncode != 0:
        sys.exit(f"{what}: {done.stdout} {done.stderr}")
    return int(re.search(r"Collected : (\d+)", done.stderr).group(1))


def a_byte(make, share):
    """The instructions of reading the plan for each byte, without those of getting the file."""
    size = written(make(share))
    return (counted("plan") - counted("file")) / size


def run():
    """The milliseconds, and the most memory in kilobytes."""
    done = subprocess.run(["/usr/bin/time", "-f", "%M", PROGRAM, "plan", TEXT], capture_output=True, text=True)
    if done.returncode != 0:
        sys.exit(f"{done.stdout} {done.stderr}")
    return int(done.stdout), int(done.stderr.split()[-1])


for name, make in TEXTS.items():
    if CHOSEN and name not in CHOSEN:
        continue
    if shutil.which("valgrind"):
        print(f"{name}: {a_byte(make, 1 / 8):.1f} instructions a byte on an eighth, {a_byte(make, 1):.1f} on the whole", flush=True)
    text = make(1)
    size = written(text)
    taken, most = [min(figures) for figures in zip(*(run() for _ in range(3)))]
    print(
        f"{name}: {size} bytes, {text.count(chr(10))} lines, {taken} ms, {most} kB, {most * 1024 / size:.1f} times the text, "
        f"load {os.getloadavg()[0]:.1f}",
        flush=True,
    )
MEASURE
python3 "$work/measure.py" ./out/hplan_bench "$work/text" "$@"
