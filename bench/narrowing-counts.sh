#!/usr/bin/env bash
# How many expansions, calls of the solver, unifiers and children an exploration by narrowing takes, and how many variants are kept and given: exclusive or over two, three and four variables, decryptions one within another, and addition by levels. A call is a part of a variant's terms with a needed rule that does not clash with it; unifiers are those that the solver gives; children have irreducible values, and are counted before any covering. It proves nothing: run at the top of the repository, it works in a copy. ONLY=WORD takes those alone whose name begins so; ONLY='XOR 4', exclusive or over four variables, takes an hour, and is left out where nothing is asked.
set -e
here=$(cd "$(dirname "$0")/.." && pwd)
there=$(mktemp -d)
trap 'rm -rf "$there"' EXIT
python3 "$here/bench/crates.py" "$there" fvn_tests_folding
# A line for each exploration: the limit of levels, and the statements of a module, of which the last is an equation with the term on its right side.
python3 - "$there/explorations" <<'TERMS'
import os
import sys

XOR = "sort S . op mt : -> S . op * : S S -> S [assoc comm] . op term : %s -> S . vars %s : %s . eq *(X1,X1) = mt [variant] . eq *(X1,X1,X2) = X2 [variant] . eq *(X1,mt) = X1 [variant] . eq term(%s) = *(%s) [variant] ."
ENC = "sorts Msg Key Keys . ops enc dec : Msg Key -> Msg . op nil : -> Keys . op more : Key Keys -> Keys . op term : Msg Keys -> Msg . var X : Msg . vars %s : Key . eq dec(enc(X,Y1),Y1) = X [variant] . eq term(X,%s) = %s [variant] ."
PLUS = "sort Nat . op 0 : -> Nat . op s : Nat -> Nat . op + : Nat Nat -> Nat . op term : Nat Nat -> Nat . vars X Y : Nat . eq +(0,Y) = Y [variant] . eq +(s(X),Y) = s(+(X,Y)) [variant] . eq term(X,Y) = +(X,Y) [variant] ."


def xor(count, sort):
    names = ["X%d" % k for k in range(1, max(count, 2) + 1)]
    all_names = ",".join(names)
    return XOR % (" ".join(["S"] * len(names)), " ".join(names), sort, all_names, all_names)


def enc(depth):
    keys = ["Y%d" % k for k in range(1, depth + 1)]
    term, all_keys = "X", "nil"
    for key in keys:
        term = "dec(%s,%s)" % (term, key)
        all_keys = "more(%s,%s)" % (key, all_keys)
    return ENC % (" ".join(keys), all_keys, term)


rows = []
for count in (2, 3, 4):
    rows.append(("XOR %d, variables of the kind" % count, 99, xor(count, "[S]")))
    rows.append(("XOR %d, variables of the sort" % count, 99, xor(count, "S")))
for depth in (8, 32):
    rows.append(("ENC %d" % depth, 99, enc(depth)))
for levels in (1, 2, 3, 4, 8, 16, 32):
    rows.append(("PLUS %d" % levels, levels, PLUS))
only = os.environ.get("ONLY")
with open(sys.argv[1], "w") as out:
    for name, levels, statements in rows:
        if name.startswith(only) if only else not name.startswith("XOR 4"):
            out.write("%s | %d | %s\n" % (name, levels, statements))
TERMS
cd "$there/crates/fvn_tests_folding"
# The rest of the tests is not needed.
rm -r src/tests proofs/tests proofs/Members.antt
printf -- '-- The lemmas of the crate.\n' > proofs/Lib.antt
cat > src/tests.rt <<'PROGRAM'
//! What explorations by narrowing take.
ghost use Rattle.std.specs.Prelude.{◌≡◌};

use fvn_axunify::{AxiomUnify, SolveLimits};
use fvn_cohere::first_left_fault;
use fvn_cover::{OpenGate, Variant};
use fvn_exploring::{Expander, Expansion, ExploreEnd, Limits};
use fvn_flat::{AxiomSolver, Flat, Normal, Pairs, Solved, flatten};
use fvn_fold::explore;
use fvn_module::{Module, read_module};
use fvn_narrow::Narrower;
use fvn_rewrite_rules::{Rules, extend};
use fvn_signature::Signature;
use fvn_terms::NoMemory;
use fvn_theory::{Bounds, Equation};
use std::alloc::Global;
use std::process::Abort;
use std::slice;
use std::string::String;
use std::sync::atomic::{AtomicU32, Ordering};
use std::thread::Threads;

const EXPLORATIONS: &str = "@EXPLORATIONS@";

/// Counts the calls of another solver, and the unifiers that it gives.
#[derive(Drop)]
struct CountingSolver<'a, A: AxiomSolver> {
    inner: &'a A,
    calls: AtomicU32,
    unifiers: AtomicU32,
}

impl<A: AxiomSolver> AxiomSolver for CountingSolver<'_, A> {
    ghost signature = { λ s. A.signature s.inner.now };

    ghost most_unifiers = { λ s. A.most_unifiers s.inner.now };

    ghost most_symbols = { λ s. A.most_symbols s.inner.now };

    ghost drawn = { λ s. A.drawn s.inner.now };

    fn solve(&self, alloc: Global, problem: &Pairs, first_fresh: u32) -> Result<Solved, NoMemory> {
        self.calls.fetch_add(1, Ordering::SeqCst);
        let solved = self.inner.solve(alloc, problem, first_fresh)?;
        self.unifiers.fetch_add(solved.unifiers.len() as u32, Ordering::SeqCst);
        Ok(solved)
    }
}

/// Counts the expansions of another expander, and their children.
#[derive(Drop)]
struct CountingExpander<'a, E: Expander> {
    inner: &'a E,
    expansions: AtomicU32,
    children: AtomicU32,
}

impl<E: Expander> Expander for CountingExpander<'_, E> {
    ghost setting = { λ e. E.setting e.inner.now };

    ghost drawn = { λ e. E.drawn e.inner.now };

    fn fixed(&self) -> &[Flat] {
        self.inner.fixed()
    }

    fn expand(&self, alloc: Global, v: &Variant, first_fresh: u32) -> Result<Expansion, NoMemory> {
        self.expansions.fetch_add(1, Ordering::SeqCst);
        let e = self.inner.expand(alloc, v, first_fresh)?;
        self.children.fetch_add(e.children.len() as u32, Ordering::SeqCst);
        Ok(e)
    }

    fn rest(&self, alloc: Global, t: &Flat) -> Result<Normal, NoMemory> {
        self.inner.rest(alloc, t)
    }
}

fn end_name(end: &ExploreEnd) -> &'static str {
    match end {
        ExploreEnd::Complete => "complete",
        ExploreEnd::Levels(_) => "bound levels",
        ExploreEnd::Variants(_) => "bound variants",
        ExploreEnd::Steps(_, _) => "bound steps",
        ExploreEnd::Size(_) => "bound size",
        ExploreEnd::Basis(_, _) => "bound basis",
        ExploreEnd::Unifiers(_, _) => "bound unifiers",
    }
}

fn counted<R: Threads + Abort + Sync>(
    rt: &R,
    out: &HostRuntime,
    name: &str,
    levels: u32,
    sig: &Signature,
    rules: &Rules,
    term: &Flat,
) -> Result<(), NoMemory> {
    let alloc = out.alloc();
    let limits = SolveLimits {
        unifiers: 4096,
        size: 1000,
    };
    let inner = AxiomUnify::new(sig, limits);
    let solver = CountingSolver {
        inner: &inner,
        calls: AtomicU32::new(0),
        unifiers: AtomicU32::new(0),
    };
    let bounds = Bounds {
        steps: 1000,
        size: 1000,
    };
    let narrower = Narrower::new(alloc, sig, rules, &solver, bounds);
    let expander = CountingExpander {
        inner: &narrower,
        expansions: AtomicU32::new(0),
        children: AtomicU32::new(0),
    };
    let far = Limits {
        levels,
        variants: 1000,
        steps: 1000,
        size: 1000,
        workers: 1,
    };
    let x = explore(rt, alloc, sig, &expander, slice::from_ref(term), far, &OpenGate)?;
    let expansions = expander.expansions.load(Ordering::SeqCst);
    let children = expander.children.load(Ordering::SeqCst);
    let calls = solver.calls.load(Ordering::SeqCst);
    let unifiers = solver.unifiers.load(Ordering::SeqCst);
    let kept = x.kept.len();
    let given = x.variants.len();
    let end = end_name(&x.end);
    let _ = println!(out; "{name}: expansions {expansions}, calls {calls}, unifiers {unifiers}, children {children}, kept {kept}, given {given}, {end}");
    Ok(())
}

fn counted_in<R: Threads + Abort + Sync>(
    rt: &R,
    out: &HostRuntime,
    name: &str,
    levels: u32,
    declared: &Module,
) -> Result<(), NoMemory> {
    let alloc = out.alloc();
    let sig = declared.signature();
    let equations = declared.equations();
    let count = equations.len();
    assert!(rt; count >= 1, "no equation in {name}");
    assert!(rt; first_left_fault(alloc, sig, equations)?.is_none(), "a fault in {name}");
    let rules = extend(alloc, sig, equations)?;
    let term = flatten(alloc, sig, &equations[count - 1].right)?;
    counted(rt, out, name, levels, sig, &rules, &term)
}

fn cut<'a>(text: &'a str, mark: &str) -> (&'a str, &'a str) {
    text.split_once(mark).unwrap_or((text, ""))
}

fn counted_line<R: Threads + Abort + Sync>(
    rt: &R,
    out: &HostRuntime,
    line: &str,
) -> Result<(), NoMemory> {
    let (name, behind) = cut(line, " | ");
    let (levels, statements) = cut(behind, " | ");
    let mut text = String::new(out.alloc());
    text.push_str("fmod M is ")?;
    text.push_str(statements)?;
    text.push_str(" endfm")?;
    match read_module(out.alloc(), text.as_bytes()) {
        Ok(module) => counted_in(rt, out, name, levels.parse::<u32>().unwrap_or(0), &module),
        Err(_) => {
            let _ = println!(out; "{name}: no module");
            Ok(())
        }
    }
}

#[test]
fn counts(rt: HostRuntime) -> Result<(), NoMemory> {
    for line in EXPLORATIONS.lines() {
        counted_line(&rt, &rt, line)?;
    }
    Ok(())
}
PROGRAM
python3 - "$there/explorations" <<'FILL'
import sys
text = open('src/tests.rt').read()
open('src/tests.rt', 'w').write(text.replace('@' + 'EXPLORATIONS@', open(sys.argv[1]).read().strip()))
FILL
rt fmt > /dev/null
rt try --test --seconds 3000
