#!/usr/bin/env bash
# How many unifiers problems modulo C, AC and ACU are given, and in how many microseconds; where Maude is installed, how many its `unify` gives, and its times. Code as LLVM builds it: run at the top of the repository; it works in a copy, which it proves first. With `try` it proves nothing, and times code with checks, which is over a hundred times slower. PROBLEMS=FILE takes other problems than those of bench/combine-problems.txt.
set -e
here=$(cd "$(dirname "$0")/.." && pwd)
there=$(mktemp -d)
trap 'rm -rf "$there"' EXIT
python3 "$here/bench/crates.py" "$there" 'fvn_tests_combine: fvn_base fvn_combine fvn_combine_nodes fvn_combine_tree fvn_combine_triangular fvn_flat fvn_signature fvn_terms fvn_tests_samples'
# A term is written with each operator after its arguments: constants f and g, free operators h and i, a commutative
# operator j, sums k and n, and sums l and m with the identity g.
cp "${PROBLEMS:-$here/bench/combine-problems.txt}" "$there/problems"
cd "$there/crates/fvn_tests_combine"
# The rest of the tests is not needed.
find src/tests -type f ! -name given.rt -delete
find proofs/tests -mindepth 1 -maxdepth 1 ! -name given -exec rm -r {} +
mkdir proofs/tests/is_small
cat > proofs/tests/is_small/Invariants.antt <<'PROOF'
-- What is counted and what is left are all symbols.
use Rattle.std.proofs.Common.{◌≡◌, ◌+◌, ◌≤◌, drop}
use Rattle.fvn_flat.specs.Solving.{symbols_of_pairs}
use Rattle.fvn_tests_combine.proofs.tests.is_small.Given as goal

abbrev pub invariant-loop-l : goal.invariant-loop-l
invariant-loop-l l = (symbols_of_pairs l.problem.pairs ≡ l.total + symbols_of_pairs (drop l.l-index l.l-items)) × (l.total ≤ 900)
PROOF
cat > src/tests.rt <<'PROGRAM'
//! Times of combined unification.
ghost use Rattle.std.specs.Prelude.{◌≤◌, IsTrue};
ghost use Rattle.fvn_base.specs.declared.limits.TheConstants.{TERM_SYMBOLS};
ghost use Rattle.fvn_flat.specs.Solving.{symbols_of_pairs};

mod given;

use self::given::is_problem;
use fvn_combine::{CombineEnd, Combiner};
use fvn_flat::Pairs;
use fvn_tests_samples::{problem_of, signature_of};
use fvn_signature::Signature;
use fvn_terms::NoMemory;
use std::process::Abort;
use std::time::Instant;

/// Constants f and g, free operators h and i, a commutative operator j, sums k and n, and sums l and m with the identity g.
const OPERATORS: &str = "A; f : -> A; g : -> A; h : A -> A; i : A A -> A; j : A A -> A [comm]; k : A A -> A [assoc comm]; l : A A -> A [assoc comm id: g]; m : A A -> A [assoc comm id: g]; n : A A -> A [assoc comm]";

const PROBLEMS: &str = "@PROBLEMS@";

/// Whether the sides have few symbols together.
fn is_small(problem: &Pairs) -> bool
    ensures { IsTrue result → symbols_of_pairs problem.now.pairs ≤ TERM_SYMBOLS }
{
    let mut total: u64 = 0;
    for (l, r) in problem.pairs.as_slice() {
        let left = l.size();
        let right = r.size();
        if left > 400 || right > 400 || total > 100 {
            return false;
        }
        total = total + left + right;
    }
    total <= 900
}

/// How many unifiers are given, and whether the search ends at a limit.
fn counted(combiner: &mut Combiner) -> Result<(u64, bool), NoMemory> {
    for count in 0..1000000000 {
        match combiner.advance() {
            Ok(Some(_)) => {}
            Ok(None) => return Ok((count, false)),
            Err(CombineEnd::NoMemory) => return Err(NoMemory),
            Err(CombineEnd::Basis(_, _)) => return Ok((count, true)),
            Err(CombineEnd::Size(_)) => return Ok((count, true)),
        }
    }
    Ok((0, true))
}

fn timed(abort: &impl Abort, rt: &HostRuntime, sig: &Signature, text: &str) -> Result<(), NoMemory> {
    let alloc = rt.alloc();
    let Some(problem) = problem_of(alloc, sig, text)? else {
        return Err(NoMemory);
    };
    assert!(abort; is_problem(alloc, sig, &problem)?);
    assert!(abort; is_small(&problem));
    if let Ok(start) = Instant::now(rt) {
        let mut combiner = Combiner::new(alloc, sig, &problem, 0, 1000)?;
        let (count, ended) = counted(&mut combiner)?;
        let end = if ended { " and an end" } else { "" };
        if let Ok(time) = start.elapsed(rt) {
            let _ = println!(rt; "{text}: {count}{end}, {} us", time.as_micros());
        }
    }
    Ok(())
}

fn all_timed(abort: &impl Abort, rt: &HostRuntime, sig: &Signature) -> Result<(), NoMemory> {
    for text in PROBLEMS.lines() {
        timed(abort, rt, sig, text)?;
    }
    Ok(())
}

#[test]
fn times(rt: HostRuntime) -> Result<(), NoMemory> {
    let alloc = rt.alloc();
    match signature_of(alloc, OPERATORS)? {
        Some(sig) => all_timed(&rt, &rt, &sig)?,
        None => assert!(rt; false),
    }
    Ok(())
}
PROGRAM
python3 - "$there/problems" <<'FILL'
import sys
text = open('src/tests.rt').read()
open('src/tests.rt', 'w').write(text.replace('@' + 'PROBLEMS@', open(sys.argv[1]).read().strip()))
FILL
rt fmt > /dev/null
if [ "$1" = try ]; then rt try --test --steps 1000; else (cd "$there" && git init -q . && rt ci fvn_tests_combine) | grep -E ' us$|passed|FAILED'; fi
if command -v maude > /dev/null; then
  python3 "$here/bench/combine-maude.py" "$there/problems"
fi
