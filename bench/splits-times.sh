#!/usr/bin/env bash
# Times of free problems of 100, 200 and 400 symbols: of their flat forms, their table, its closing, their parts and their first split. Run at the top of the repository; it works in a copy, which it does not prove: `rt try` runs it, so that only the proportions tell.
set -e
here=$(cd "$(dirname "$0")/.." && pwd)
there=$(mktemp -d)
trap 'rm -rf "$there"' EXIT
python3 "$here/bench/crates.py" "$there" 'times: fvn_base fvn_combine_tree fvn_flat fvn_forms fvn_purify fvn_sorts fvn_terms'
mkdir -p "$there/crates/times/src"
cd "$there/crates/times"
cat > src/main.rt <<'PROGRAM'
//! Times of free problems.
#![tactic(auto)]

use fvn_base::Seq;
use fvn_flat::{Pairs, flatten};
use fvn_combine_tree::{start, table_of};
use fvn_purify::{Splits, purify};
use fvn_sorts::{Signature, SignatureBuilder};
use fvn_terms::{Args, Axioms, NoMemory, OpId, Plain, Rank, SortId, Var};
use std::alloc::Global;
use std::time::Instant;

fn variable(number: u32) -> Var {
    Var { name: number, sort: SortId(0), fresh: false }
}

fn with(alloc: Global, builder: SignatureBuilder, op: u16, count: usize) -> Result<SignatureBuilder, NoMemory> {
    let mut list = Vec::new(alloc);
    for _ in 0..count {
        list.push(SortId(0))?;
    }
    let rank = Rank { args: Seq::from_vec(list), result: SortId(0) };
    let more = builder.op(OpId(op), rank, false, Axioms::Free)?;
    Ok(more)
}

fn collected(alloc: Global) -> Result<SignatureBuilder, NoMemory> {
    let sorted = SignatureBuilder::new(alloc).sort()?;
    let f = with(alloc, sorted, 0, 0)?;
    let g = with(alloc, f, 1, 0)?;
    let h = with(alloc, g, 2, 1)?;
    let i = with(alloc, h, 3, 2)?;
    Ok(i)
}

fn deep(alloc: Global, count: u32, leaf: Plain) -> Result<Plain, NoMemory> {
    let mut t = leaf;
    for _ in 0..count {
        let mut items = Vec::new(alloc);
        items.push(t)?;
        t = Plain::App(OpId(2), Args::from_vec(items));
    }
    Ok(t)
}

// i(x_first, i(x_first+1, .. i(x_last-1, leaf)))
fn comb(alloc: Global, first: u32, count: u32, leaf: Plain) -> Result<Plain, NoMemory> {
    let mut t = leaf;
    for k in 0..count {
        let mut items = Vec::new(alloc);
        items.push(Plain::Var(variable(first + (count - 1 - k))))?;
        items.push(t)?;
        t = Plain::App(OpId(3), Args::from_vec(items));
    }
    Ok(t)
}

fn constant(alloc: Global) -> Plain {
    Plain::App(OpId(0), Args::from_vec(Vec::new(alloc)))
}

fn told(rt: &HostRuntime, what: &str, size: u32, start: Instant) {
    if let Ok(time) = start.elapsed(rt) {
        let _ = println!(rt; "{what} {size}: {} us", time.as_micros());
    }
}

fn nodes(rt: &HostRuntime, sig: &Signature, size: u32, l: &Plain, r: &Plain) -> Result<(), NoMemory> {
    let alloc = rt.alloc();
    if let Ok(first) = Instant::now(rt) {
        let mut pairs = Vec::new(alloc);
        let left = flatten(alloc, sig, l)?;
        let right = flatten(alloc, sig, r)?;
        pairs.push((left, right))?;
        let problem = Pairs { pairs: Seq::from_vec(pairs) };
        told(rt, "  flattened", size, first);
        if let Ok(begin) = Instant::now(rt) {
            let table = table_of(alloc, sig, &problem)?;
            told(rt, "  table", size, begin);
            if let Ok(begin) = Instant::now(rt) {
                let state = start(alloc, sig, &table)?;
                match state {
                    None => told(rt, "  closed, none", size, begin),
                    Some(_) => told(rt, "  closed, a state", size, begin),
                }
            }
        }
        if let Ok(begin) = Instant::now(rt) {
            let classes = purify(alloc, sig, &problem)?;
            told(rt, "  purified", size, begin);
            if let Ok(begin) = Instant::now(rt) {
                let mut splits = Splits::new(alloc, sig, &classes)?;
                let first = splits.advance()?;
                match first {
                    None => told(rt, "  no split", size, begin),
                    Some(_) => told(rt, "  first split", size, begin),
                }
            }
        }
    }
    Ok(())
}

fn chain(rt: &HostRuntime, sig: &Signature, size: u32) -> Result<(), NoMemory> {
    let alloc = rt.alloc();
    let l = deep(alloc, size / 2 - 1, Plain::Var(variable(0)))?;
    let r = deep(alloc, size / 2 - 1, Plain::Var(variable(1)))?;
    let _ = println!(rt; "chain");
    nodes(rt, sig, size, &l, &r)
}

fn cascade(rt: &HostRuntime, sig: &Signature, size: u32) -> Result<(), NoMemory> {
    let alloc = rt.alloc();
    let count = size / 4;
    let l = comb(alloc, 0, count, Plain::Var(variable(count)))?;
    let r = comb(alloc, 1, count, constant(alloc))?;
    let _ = println!(rt; "cascade");
    nodes(rt, sig, size, &l, &r)
}

fn apart(rt: &HostRuntime, sig: &Signature, size: u32) -> Result<(), NoMemory> {
    let alloc = rt.alloc();
    let count = size / 4;
    let l = comb(alloc, 0, count, constant(alloc))?;
    let r = comb(alloc, count, count, constant(alloc))?;
    let _ = println!(rt; "apart");
    nodes(rt, sig, size, &l, &r)
}

fn all(rt: &HostRuntime, sig: &Signature) -> Result<(), NoMemory> {
    for size in [100u32, 200, 400] {
        chain(rt, sig, size)?;
        cascade(rt, sig, size)?;
        apart(rt, sig, size)?;
    }
    Ok(())
}

fn main(rt: HostRuntime) -> Result<(), NoMemory> {
    let alloc = rt.alloc();
    match collected(alloc)?.finish(alloc) {
        Ok(sig) => all(&rt, &sig),
        Err(_) => Ok(()),
    }
}
PROGRAM
rt try --seconds 500 --steps 100000000000 2>&1 | grep -aE ' us$|^(chain|cascade|apart)$|error|status'
