#!/usr/bin/env bash
# Times `print_domain` on one action that deletes 1,000,000 atoms of two arguments, compiled, against a copy of the
# printed bytes: writes a program into a temporary copy of the crates that it stands on, and proves, builds and runs it
# there. Prints, three times, a line each: bytes, microseconds and megabytes per second of printing into an empty text,
# of printing into a text with room, and of the copy.
set -e
top=$(cd "$(dirname "$0")/.." && pwd)
copy=$(mktemp -d)
trap 'rm -rf "$copy"' EXIT
mkdir -p "$copy/crates/printer_bench/src"
for crate in htn_base text_forms plan_model plan_texts pddl_printer; do
    cp -r "$top/crates/$crate" "$copy/crates/"
    grep "^$crate:" "$top/crates.txt" >>"$copy/crates.txt"
done
echo "printer_bench: htn_base plan_model pddl_printer" >>"$copy/crates.txt"
cp "$top/HANDLES" "$copy/"
cat >"$copy/crates/printer_bench/src/main.rt" <<'E'
#![tactic(auto)]

use htn_base::{List, Memory, Name, NameTable, Text, WordList};
use pddl_printer::print_domain;
use plan_model::{ActionSchema, Atom, Effect, Facts, Formula, Object, Param, Parent, Pddl, Predicate, Term, Types};
use std::alloc::Global;
use std::io;
use std::rt::Clock;
use std::time::Instant;

const DELETES: u32 = 1_000_000;
const SLOTS: u32 = 1000;

/// Names 0 to 5 are those of the value, and name 6 + k that of slot k.
fn names(alloc: Global) -> Result<WordList, Memory> {
    let mut names = NameTable::new(alloc);
    if names.len() == 0 {
        names.intern(b"d")?;
    }
    add(&mut names, b"object")?;
    add(&mut names, b"htn_slot")?;
    add(&mut names, b"htn_before")?;
    add(&mut names, b"htn_h")?;
    add(&mut names, b"htn_start")?;
    for k in 0..SLOTS {
        let word = htn_base::slot_name(alloc, k + 1)?;
        add(&mut names, word.as_slice())?;
    }
    names.to_list(alloc)
}

fn add(names: &mut NameTable, word: &[u8]) -> Result<(), Memory> {
    if names.len() < 5000 {
        names.intern(word)?;
    }
    Ok(())
}

fn objects(alloc: Global) -> Result<List<Object>, Memory> {
    let mut objects = List::new(alloc);
    for k in 0..SLOTS {
        let name = Name { number: 6 + k };
        objects.push(Object { name, ty: 1, constant: true })?;
    }
    Ok(objects)
}

fn slot() -> Param {
    Param { name: Name { number: 4 }, ty: 1 }
}

fn params(alloc: Global, number: u32) -> Result<List<Param>, Memory> {
    let mut params = List::new(alloc);
    for _ in 0..number {
        params.push(slot())?;
    }
    Ok(params)
}

fn deletes(alloc: Global) -> Result<Effect, Memory> {
    let mut effects = List::new(alloc);
    for k in 0..DELETES {
        let mut args = List::new(alloc);
        args.push(Term::Var(0))?;
        args.push(Term::Obj(k % SLOTS))?;
        effects.push(Effect::Delete(Atom { predicate: 0, args }))?;
    }
    Ok(Effect::And(effects))
}

fn types(alloc: Global) -> Result<Types, Memory> {
    let mut names = List::new(alloc);
    names.push(Name { number: 1 })?;
    names.push(Name { number: 2 })?;
    let mut parents = List::new(alloc);
    parents.push(Parent { child: 1, parent: 0 })?;
    Ok(Types { names, parents, unions: List::new(alloc) })
}

fn predicates(alloc: Global) -> Result<List<Predicate>, Memory> {
    let mut predicates = List::new(alloc);
    predicates.push(Predicate { name: Name { number: 3 }, params: params(alloc, 2)? })?;
    Ok(predicates)
}

fn actions(alloc: Global) -> Result<List<ActionSchema>, Memory> {
    let mut actions = List::new(alloc);
    let eff = deletes(alloc)?;
    let params = params(alloc, 1)?;
    let pre = Formula::And(List::new(alloc));
    actions.push(ActionSchema { name: Name { number: 5 }, params, pre, eff })?;
    Ok(actions)
}

fn value(alloc: Global) -> Result<Pddl, Memory> {
    Ok(Pddl {
        names: names(alloc)?,
        domain: Name { number: 0 },
        problem: Name { number: 0 },
        types: types(alloc)?,
        objects: objects(alloc)?,
        predicates: predicates(alloc)?,
        actions: actions(alloc)?,
        init: Facts::new(alloc),
        goal: Formula::And(List::new(alloc)),
    })
}

fn told<R: Print + Clock>(rt: &R, name: &str, start: Instant, bytes: usize) -> io::Result<()> {
    let spent = start.elapsed(rt)?;
    let spent = spent.as_micros();
    let bytes = bytes as u128;
    let speed = if spent == 0 { 0 } else { bytes / spent };
    println!(rt; "{name}: {bytes} bytes, {spent} us, {speed} MB/s")
}

fn printed<R: Print + Clock>(rt: &R, alloc: Global, name: &str, value: &Pddl, room: usize) -> io::Result<Text> {
    let mut text = Text::new(alloc);
    let start = Instant::now(rt)?;
    let _ = text.reserve(room);
    let _ = print_domain(value, &mut text);
    told(rt, name, start, text.len())?;
    Ok(text)
}

fn copied<R: Print + Clock>(rt: &R, alloc: Global, bytes: &[u8]) -> io::Result<()> {
    let mut text = Text::new(alloc);
    let start = Instant::now(rt)?;
    let _ = text.reserve(bytes.len());
    let _ = text.push_all(bytes);
    told(rt, "copy", start, text.len())
}

fn rounds<R: Print + Clock>(rt: &R, alloc: Global, value: &Pddl) -> io::Result<()> {
    for _ in 0..3 {
        let text = printed(rt, alloc, "print, no room", value, 0)?;
        let again = printed(rt, alloc, "print, with room", value, text.len())?;
        copied(rt, alloc, again.as_slice())?;
    }
    Ok(())
}

fn main(rt: HostRuntime) -> io::Result<()> {
    let alloc = rt.alloc();
    match value(alloc) {
        Ok(value) => rounds(&rt, alloc, &value),
        Err(_) => println!(rt; "out of memory"),
    }
}
E
cd "$copy/crates/printer_bench"
rt run >"$copy/log" 2>&1 || { cat "$copy/log"; exit 1; }
grep 'MB/s' "$copy/log"
