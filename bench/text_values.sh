#!/usr/bin/env bash
# Times `hddl_of` from bytes to the value, compiled, against `text_forms::sexpr_text::read` with each token asked for, on texts of names: `:init` atoms of
# up to 16,777,216 bytes, a million variables and a million objects, each used once, 1,000 types with 100,000 pairs, a method of 4,096
# subtasks with 100,000 written pairs, a million atoms in 190 quantifiers, and a million variables under one union of 1,000 types. Writes a
# program into a temporary copy of the crates that it stands on, and proves, builds and runs it there; what those crates have proved and
# built is copied along. Where valgrind is at hand, a line a text for an eighth of its size: the instructions of the value, how many times
# those of the tokens, and how many times as many the double size takes. Then a line for the whole size: bytes, tokens, the milliseconds of
# the tokens and of the value, how many times as long the value takes, the most memory in kilobytes, and the load of the machine over the
# last minute. Each figure is the least of three runs. Arguments name the texts that are tried, all where there are none.
#
# Counted, an eighth of the size: instructions of the value against those of the tokens, and of twice the size against once. init 1.26 and 1.96,
# short init 1.83 and 1.99, bare init 1.31 and 1.99, variables 3.08 and 1.99, objects 3.02 and 1.98, types 2.73 and 1.83, network 3.55 and 1.23,
# quantifiers 2.09 and 1.98, union 71.6 and 2.00. Milliseconds of the tokens and of the value, on a machine at loads of 5 to 8: init 124 and 266,
# short init 199 and 648, bare init 286 and 1,111, variables 1,098 and 9,585, objects 459 and 6,953, types 101 and 644, network 182 and 253,
# quantifiers 689 and 2,656, union 91 and 22,761, when words that have
# one written list of types were compared with it one by one. Since they are marked as they are read, `htn bound` takes 1.45 s from the files
# of the case union, and 0.01, 0.02, 0.04 and 0.63 s to tell the fault of 10, 20, 40 and 400 thousand variables under as many undeclared
# names (the first three before: 0.31, 1.16 and 4.67). The most memory: bare init, 427,556 kilobytes.
# On a quiet machine since, milliseconds of the tokens and of the value: init 75 and 206 (2.75 times), short init 154 and 570 (3.70), bare init 225
# and 876 (3.89); in instructions 1.26, 1.83 and 1.31 times. The last two take
# 254,864 and 427,612 kilobytes, and touching these for the first time is a good part of their time.
# Since facts stand in two flat lists and a text is read with its index in one pass, `htn bound` takes 124, 240 and 432 to 468 milliseconds from the
# files of these three cases to its line, on a quiet machine on which the tokens take 103, 159 and 270 (the program of bench/tokens): 1.2, 1.5 and
# at most 1.8 times as long, with all that the program does beside. The value alone was not timed anew.
set -euo pipefail
top=$(cd "$(dirname "$0")/.." && pwd)
work=$(mktemp -d)
trap 'rm -rf "$work"' EXIT
mkdir -p "$work/crates/values_bench/src"
for crate in htn_base text_forms plan_model gd_reader hddl_reader plan_texts name_binding hddl_bind plan_text text_values; do
    cp -a "$top/crates/$crate" "$work/crates/"
    grep "^$crate:" "$top/crates.txt" >>"$work/crates.txt"
done
echo 'values_bench: htn_base text_forms plan_model text_values' >>"$work/crates.txt"
cp "$top/HANDLES" "$work/"
cat >"$work/crates/values_bench/src/main.rt" <<'PROGRAM'
//! Takes a domain's file and a problem's: reads them alone (`files`), with each of their tokens (`tokens`), or as the `value` that they
//! stand for. Prints the tokens, or 0, and the milliseconds.
#![tactic(auto)]

use htn_base::Fault;
use std::io::{self, ErrorKind, Read};
use std::time::Instant;
use std::{env, fs};
use text_forms::sexpr_text::{ReadError, read};
use text_values::hddl_of;

const LONGEST: u64 = 16_777_216;

fn main(rt: HostRuntime) -> io::Result<()> {
    let words = env::args(&rt)?.skip(1).collect::<Vec<String>>(rt.alloc())?;
    match words.as_slice() {
        [what, domain, problem] => time(rt, what, domain, problem),
        _ => Err(io::Error::from(ErrorKind::InvalidInput)),
    }
}

fn source(rt: HostRuntime, name: &str) -> io::Result<Vec<u8>> {
    let mut source = Vec::with_capacity(rt.alloc(), 16_777_248)?;
    fs::open(&rt, name)?.take(LONGEST).read_to_end(&mut source)?;
    Ok(source)
}

fn time(rt: HostRuntime, what: &str, domain: &str, problem: &str) -> io::Result<()> {
    let domain = source(rt, domain)?;
    let problem = source(rt, problem)?;
    let start = Instant::now(&rt)?;
    let count = if what == "tokens" {
        tokens(rt, &domain)?.saturating_add(tokens(rt, &problem)?)
    } else if what == "value" {
        value(rt, &domain, &problem)?;
        0
    } else {
        0
    };
    let taken = start.elapsed(&rt)?.as_millis();
    println!(rt; "{count} {taken}")
}

/// Asks for each token of a text, and gives their number.
fn tokens(rt: HostRuntime, text: &[u8]) -> io::Result<usize> {
    if text.len() > 16_777_216 {
        return Err(io::Error::from(ErrorKind::InvalidData));
    }
    match read(rt.alloc(), text, 0) {
        Ok(s) => Ok((0..s.len()).filter(|i| s.token(*i).is_some()).count()),
        Err(_) => Err(io::Error::from(ErrorKind::InvalidData)),
    }
}

/// Makes the value of two texts, and drops it.
fn value(rt: HostRuntime, domain: &[u8], problem: &[u8]) -> io::Result<()> {
    if domain.len() > 16_777_216 || problem.len() > 16_777_216 {
        return Err(io::Error::from(ErrorKind::InvalidData));
    }
    match hddl_of(rt.alloc(), domain, problem) {
        Ok(_) => Ok(()),
        Err(ReadError::Memory) => Err(io::Error::from(ErrorKind::OutOfMemory)),
        Err(ReadError::Bad(Fault { code, file, at })) => {
            println!(rt; "fault {code} in file {file} at {at}")?;
            Err(io::Error::from(ErrorKind::InvalidData))
        }
    }
}
PROGRAM
cd "$work/crates/values_bench"
printf '(define (domain d))' >"$work/domain"
printf '(define (problem p) (:domain d) (:htn))' >"$work/problem"
rt run -- files "$work/domain" "$work/problem" >"$work/log" 2>&1 || { cat "$work/log"; exit 1; }
cat >"$work/measure.py" <<'MEASURE'
import os, random, re, shutil, subprocess, sys

LONGEST = 16777216
PROGRAM, DOMAIN, PROBLEM = sys.argv[1:4]
CHOSEN = sys.argv[4:]


def word(number):
    """A name of four signs, a letter and digits in base 36; those of the first million numbers are no reserved words."""
    signs, rest = "", number
    for _ in range(3):
        signs, rest = "0123456789abcdefghijklmnopqrstuvwxyz"[rest % 36] + signs, rest // 36
    return "abcdefghijklmnopqrstuvwxyz"[rest] + signs


def joined(part, count):
    return " ".join(map(part, range(count)))


def domain(body):
    return f"(define (domain d) {body})"


def problem(body):
    return f"(define (problem p) (:domain d) (:htn) {body})"


def init(share):
    """Atoms of two arguments over some 2,000 objects, as a plain domain has."""
    objects = joined(lambda i: f"package-{i}", 1000) + " " + joined(lambda i: f"city-loc-{i}", 997)
    count = int(share * 497500)
    return domain("(:predicates (at ?x ?y))"), problem(
        f"(:objects {objects}) (:init " + joined(lambda i: f"(at package-{i % 1000} city-loc-{i % 997})", count) + ")"
    )


def short_init(share):
    """Atoms of two arguments with short names."""
    count = int(share * 1450000)
    return domain("(:predicates (on ?x ?y))"), problem(
        f"(:objects b {joined(lambda i: f'a{i}', 89)}) (:init " + joined(lambda i: f"(on a{i % 89} b)", count) + ")"
    )


def bare_init(share):
    """Atoms with no argument, the shortest that there are."""
    return domain("(:predicates (p))"), problem(f"(:init {'(p)' * int(share * 5592000)})")


def variables(share):
    """A million variables of one action, each used once."""
    count = int(share * 1000000)
    return domain(
        f"(:predicates (q ?x)) (:action a :parameters ({joined(lambda i: '?' + word(i), count)}) :precondition (and "
        + "".join(f"(q ?{word(i)})" for i in range(count)) + "))"
    ), problem("")


def objects(share):
    """A million objects, each used once."""
    count = int(share * 1000000)
    return domain("(:predicates (q ?x))"), problem(
        f"(:objects {joined(word, count)}) (:init " + "".join(f"(q {word(i)})" for i in range(count)) + ")"
    )


def types(share):
    """1,000 types with 100,000 pairs, each with an earlier type."""
    draw = random.Random(1)
    pairs = []
    for k in range(int(share * 100000)):
        child = 1 + k % 999
        pairs.append(f"t{child} - t{draw.randrange(child)}")
    return domain(f"(:types t0 - object {' '.join(pairs)})"), problem("")


def network(share):
    """A method of 4,096 subtasks with 100,000 written pairs, each of a subtask and a later one."""
    draw = random.Random(1)
    subtasks = joined(lambda i: f"(s{i} (a))", 4096)
    pairs = []
    for _ in range(int(share * 100000)):
        first = draw.randrange(4095)
        pairs.append(f"(< s{first} s{draw.randrange(first + 1, 4096)})")
    return domain(
        "(:task t :parameters ()) (:action a :parameters ()) (:method m :parameters () :task (t) "
        f":subtasks (and {subtasks}) :ordering (and {' '.join(pairs)}))"
    ), problem("")


def quantifiers(share):
    """A million atoms in 190 quantifiers, each over a variable of one of them."""
    atoms = "".join(f"(q ?x{i % 190})" for i in range(int(share * 1000000)))
    inner = f"(and {atoms})"
    for i in reversed(range(190)):
        inner = f"(forall (?x{i}) {inner})"
    return domain("(:predicates (q ?x))"), problem(f"(:goal {inner})")


def union(share):
    """A million variables of one predicate under one union of 1,000 types."""
    named = joined(lambda i: f"t{i}", 1000)
    return domain(f"(:types {named}) (:predicates (q {joined(lambda i: '?' + word(i), int(share * 1000000))} - (either {named})))"), problem("")


TEXTS = {
    "init": init,
    "short init": short_init,
    "bare init": bare_init,
    "variables": variables,
    "objects": objects,
    "types": types,
    "network": network,
    "quantifiers": quantifiers,
    "union": union,
}


def written(texts):
    for place, text in zip([DOMAIN, PROBLEM], texts):
        if len(text) > LONGEST:
            sys.exit(f"{len(text)} bytes")
        open(place, "w").write(text)
    return sum(map(len, texts))


def counted(what):
    """The instructions of a run."""
    command = ["valgrind", "--tool=callgrind", "--callgrind-out-file=/dev/null", PROGRAM, what, DOMAIN, PROBLEM]
    done = subprocess.run(command, capture_output=True, text=True)
    if done.returncode != 0:
        sys.exit(f"{what}: {done.stdout} {done.stderr}")
    return int(re.search(r"Collected : (\d+)", done.stderr).group(1))


def instructions(make, share):
    """Those of the tokens and of the value, without those of reading the files."""
    written(make(share))
    files, tokens, value = (counted(what) for what in ["files", "tokens", "value"])
    return tokens - files, value - files


def run(what):
    """The tokens, the milliseconds, and the most memory in kilobytes."""
    command = ["/usr/bin/time", "-f", "%M", PROGRAM, what, DOMAIN, PROBLEM]
    done = subprocess.run(command, capture_output=True, text=True)
    if done.returncode != 0:
        sys.exit(f"{what}: {done.stdout} {done.stderr}")
    count, taken = map(int, done.stdout.split())
    return count, taken, int(done.stderr.split()[-1])


def best(what):
    """The least of three runs, each figure by itself."""
    return [min(figures) for figures in zip(*(run(what) for _ in range(3)))]


for name, make in TEXTS.items():
    if CHOSEN and name not in CHOSEN:
        continue
    if shutil.which("valgrind"):
        (tokens, less), (_, more) = instructions(make, 1 / 8), instructions(make, 1 / 4)
        print(f"{name}, an eighth: {less} instructions, {less / tokens:.2f} times the tokens; twice the size {more / less:.2f} times", flush=True)
    size = written(make(1))
    count, tokens, _ = best("tokens")
    _, value, most = best("value")
    load = os.getloadavg()[0]
    print(
        f"{name}: {size} bytes, {count} tokens {tokens} ms, value {value} ms, {value / max(tokens, 1):.2f} times, {most} kB, load {load:.1f}",
        flush=True,
    )
MEASURE
python3 "$work/measure.py" ./out/values_bench "$work/domain" "$work/problem" "$@"
