#!/usr/bin/env bash
# How many states, leaves, plans and choices the search for unifiers modulo C, AC and ACU goes through. A state is a set of decisions which nodes of the problem are in one class; a fact is a state of which all unifiers say the same, so that nothing is asked; a leaf is one in which nothing more is asked; a plan is a leaf with an operator, or none, for each class that several operators use, also where the solver passes it over; a choice is a set of minimal solutions for each sum operator of a plan. It follows the search for all unifiers, which is made where the one for more general unifiers, which comes first and parts what a loose class has apart, ends at a refused system. It proves nothing: run at the top of the repository, it works in a copy. PROBLEMS=FILE takes other problems than those of bench/combine-problems.txt, written as in bench/combine-times.sh.
set -e
here=$(cd "$(dirname "$0")/.." && pwd)
there=$(mktemp -d)
trap 'rm -rf "$there"' EXIT
python3 "$here/bench/crates.py" "$there" 'fvn_tests_combine: fvn_acunify_product fvn_base fvn_combine_candidates fvn_combine_inferring fvn_combine_leaves fvn_combine_nodes fvn_combine_questions fvn_combine_reading fvn_combine_tree fvn_combine_triangular fvn_flat fvn_lindio fvn_signature fvn_terms fvn_tests_samples'
cp "${PROBLEMS:-$here/bench/combine-problems.txt}" "$there/problems"
cd "$there/crates/fvn_tests_combine"
# The rest of the tests is not needed.
find src/tests -type f ! -name given.rt -delete
find proofs/tests -mindepth 1 -maxdepth 1 ! -name given -exec rm -r {} +
cat > src/tests.rt <<'PROGRAM'
//! How much the search goes through.
mod given;

use self::given::is_problem;
use fvn_base::Seq;
use fvn_flat::Pairs;
use fvn_combine_inferring::{Inferred, Known, differ, infer, known_of};
use fvn_combine_leaves::Reading;
use fvn_combine_questions::{first_question, question_on_all, question_on_touched};
use fvn_combine_reading::read;
use fvn_lindio::Solution;
use fvn_combine_nodes::{State, Table};
use fvn_combine_tree::{Tree, table_of};
use fvn_combine_candidates::{SolvedSystems, bases, bases_from_last, option_counts, shared, tags_of, wheels};
use fvn_tests_samples::{problem_of, signature_of};
use fvn_signature::Signature;
use fvn_terms::NoMemory;
use fvn_acunify_product::Tags;
use std::alloc::Global;
use std::process::Abort;

/// Constants f, g and o, free operators h and i, a commutative operator j, sums k and n, and sums l and m with the identity g.
const OPERATORS: &str = "A; f : -> A; g : -> A; h : A -> A; i : A A -> A; j : A A -> A [comm]; k : A A -> A [assoc comm]; l : A A -> A [assoc comm id: g]; m : A A -> A [assoc comm id: g]; n : A A -> A [assoc comm]; o : -> A";

const PROBLEMS: &str = "@PROBLEMS@";

/// What a state asks for, or how many plans and choices it has.
enum Looked {
    Question(usize, usize),
    Together(usize, usize),
    Apart(usize, usize),
    Passed,
    Refused,
    Frame(u64, u64),
}

/// How many plans and choices a frame has.
fn opened(
    alloc: Global,
    sig: &Signature,
    table: &Table,
    state: &State,
    reading: &Reading,
    lists: &[Seq<Solution>],
) -> Result<Looked, NoMemory> {
    let classes = shared(alloc, sig, table, state, reading, true)?;
    let counts = option_counts(alloc, classes.as_slice())?;
    let mut tags = Tags::new(alloc, counts)?;
    let mut plans: u64 = 0;
    let mut choices: u64 = 0;
    while let Some(numbers) = tags.current() {
        plans = plans.saturating_add(1);
        let named = tags_of(alloc, table.nodes().len(), classes.as_slice(), numbers)?;
        let mut odometer = wheels(alloc, sig, table, state, reading, lists, named.as_slice(), true)?;
        while let Some(_) = odometer.current() {
            choices = choices.saturating_add(1);
            odometer.advance();
        }
        tags.advance();
    }
    Ok(Looked::Frame(plans, choices))
}

fn question(
    sig: &Signature,
    table: &Table,
    state: &State,
    known: &Known,
    pair: (usize, usize),
) -> Looked {
    if differ(sig, table, state, known, pair.0, pair.1) {
        return Looked::Apart(pair.0, pair.1);
    }
    Looked::Question(pair.0, pair.1)
}

fn look_further(
    alloc: Global,
    sig: &Signature,
    table: &Table,
    state: &State,
    reading: &Reading,
    known: &Known,
    all: bool,
) -> Result<Looked, NoMemory> {
    if let Some(pair) = first_question(sig, table, state, reading, all) {
        return Ok(question(sig, table, state, known, pair));
    }
    let mut solved = SolvedSystems::new(alloc);
    let lists = match bases(alloc, sig, table, state, reading, &mut solved) {
        Err(_) => bases_from_last(alloc, sig, table, state, reading, known.heads.as_slice(), true)?,
        Ok(lists) => Some(lists),
    };
    match lists {
        None => match question_on_all(sig, table, state, reading) {
            Some(pair) => Ok(question(sig, table, state, known, pair)),
            None => Ok(Looked::Refused),
        },
        Some(lists) => match question_on_touched(sig, table, state, reading, known.heads.as_slice(), lists.as_slice()) {
            Some(pair) => Ok(question(sig, table, state, known, pair)),
            None => opened(alloc, sig, table, state, reading, lists.as_slice()),
        },
    }
}

fn look(alloc: Global, sig: &Signature, table: &Table, state: &State, all: bool) -> Result<Looked, NoMemory> {
    let reading = read(alloc, sig, table, state)?;
    let known = known_of(alloc, sig, table, state, &reading, true)?;
    match infer(alloc, sig, table, state, &reading, &known)? {
        Inferred::Impossible => Ok(Looked::Passed),
        Inferred::Together(i, j) => Ok(Looked::Together(i, j)),
        Inferred::Question(i, j) => Ok(Looked::Question(i, j)),
        Inferred::Nothing => look_further(alloc, sig, table, state, &reading, &known, all),
    }
}

/// How many states, frames, plans and choices there are, and whether a sum system is refused.
fn counted(alloc: Global, sig: &Signature, problem: &Pairs) -> Result<([u64; 5], bool), NoMemory> {
    let table = table_of(alloc, sig, problem)?;
    let mut tree = Tree::new(alloc, sig, &table)?;
    let mut counts: [u64; 5] = [0; 5];
    while let Some(state) = tree.top() {
        counts[0] = counts[0].saturating_add(1);
        // A search that has asked 128 states asks of all identities.
        let all = counts[0].saturating_sub(counts[4]) > 128;
        match look(alloc, sig, &table, state, all)? {
            Looked::Question(i, j) => tree.ask(alloc, sig, &table, i, j)?,
            Looked::Together(i, j) => {
                counts[4] = counts[4].saturating_add(1);
                tree.meet(alloc, sig, &table, i, j)?
            }
            Looked::Apart(i, j) => {
                counts[4] = counts[4].saturating_add(1);
                tree.part(alloc, sig, &table, i, j)?
            }
            Looked::Passed => {
                let _ = tree.take_top();
            }
            Looked::Refused => return Ok((counts, true)),
            Looked::Frame(plans, choices) => {
                counts[1] = counts[1].saturating_add(1);
                counts[2] = counts[2].saturating_add(plans);
                counts[3] = counts[3].saturating_add(choices);
                let _ = tree.take_top();
            }
        }
    }
    Ok((counts, false))
}

fn all_counted(abort: &impl Abort, rt: &HostRuntime, sig: &Signature) -> Result<(), NoMemory> {
    let alloc = rt.alloc();
    for text in PROBLEMS.lines() {
        let Some(problem) = problem_of(alloc, sig, text)? else {
            return Err(NoMemory);
        };
        assert!(abort; is_problem(alloc, sig, &problem)?);
        let (c, refused) = counted(alloc, sig, &problem)?;
        let end = if refused { ", and an end" } else { "" };
        let _ = println!(rt; "{text}: states {}, facts {}, frames {}, plans {}, choices {}{end}", c[0], c[4], c[1], c[2], c[3]);
    }
    Ok(())
}

#[test]
fn counts(rt: HostRuntime) -> Result<(), NoMemory> {
    let alloc = rt.alloc();
    match signature_of(alloc, OPERATORS)? {
        Some(sig) => all_counted(&rt, &rt, &sig)?,
        None => assert!(rt; false),
    }
    Ok(())
}
PROGRAM
python3 - "$there/problems" <<'FILL'
import sys
text = open('src/tests.rt').read()
open('src/tests.rt', 'w').write(text.replace('@' + 'PROBLEMS@', open(sys.argv[1]).read().strip()))
FILL
rt fmt > /dev/null
rt try --test --steps 1000
