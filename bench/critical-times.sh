#!/usr/bin/env bash
# Times of `critical_fault`, with the solver modulo the axioms, on the equations of small modules: exclusive or with and without its coherent equation and with an identity, a group of exponent two, addition, encryption. The rules are made within the times. Code as LLVM builds it: run at the top of the repository; it works in a copy, which it proves first. With `try` it proves nothing, and times code with checks. ROWS=WORD takes only the rows with the word in their name.
set -e
here=$(cd "$(dirname "$0")/.." && pwd)
there=$(mktemp -d)
trap 'rm -rf "$there"' EXIT
python3 "$here/bench/crates.py" "$there" fvn_tests_critical
cd "$there/crates/fvn_tests_critical"
# The rest of the tests is not needed.
cat > src/tests/testing.rt <<'PROGRAM'
//! Times of the test of confluence.
use crate::tests::telling::{Stops, module_of, push_answer};
use fvn_module::{Module, read_module};
use fvn_terms::NoMemory;
use std::alloc::Global;
use std::string::String;
use std::time::Instant;

/// How often each row is tested.
const TURNS: usize = 20;

const ROWS: &str = "@ROWS@";

fn answered(alloc: Global, module: &Module) -> Result<String, NoMemory> {
    let mut out = String::new(alloc);
    let stops = Stops {
        unifiers: 4096,
        steps: 10000,
        size: 1000,
    };
    push_answer(&mut out, alloc, module, stops)?;
    Ok(out)
}

fn timed(rt: &HostRuntime, name: &str, module: &Module) -> Result<(), NoMemory> {
    if let Ok(start) = Instant::now(rt) {
        let found = answered(rt.alloc(), module)?;
        if let Ok(time) = start.elapsed(rt) {
            let _ = println!(rt; "{name}: {}: {} us", found.as_str(), time.as_micros());
        }
    }
    Ok(())
}

fn all_timed(rt: &HostRuntime, name: &str, module: &Module) -> Result<(), NoMemory> {
    for _ in 0..TURNS {
        timed(rt, name, module)?;
    }
    Ok(())
}

fn row_timed(rt: &HostRuntime, row: &str) -> Result<(), NoMemory> {
    let (name, statements) = row.split_once(" => ").unwrap_or((row, ""));
    let text = module_of(rt.alloc(), statements)?;
    match read_module(rt.alloc(), text.as_bytes()) {
        Ok(module) => all_timed(rt, name, &module),
        Err(_) => Ok(()),
    }
}

#[test]
fn times(rt: HostRuntime) -> Result<(), NoMemory> {
    for row in ROWS.lines() {
        row_timed(&rt, row)?;
    }
    Ok(())
}
PROGRAM
python3 - "${ROWS:-}" <<'FILL'
import sys

word = sys.argv[1]
NAT = "sorts Nat NatSet . subsort Nat < NatSet . op 0 : -> Nat . op s : Nat -> Nat . op mt : -> NatSet . op _*_ : NatSet NatSet -> NatSet [assoc comm] . vars X Y Z : [NatSet] . "
UNIT = "sort S . op mt : -> S . op _*_ : S S -> S [assoc comm id: mt] . op - : S -> S . vars X Y : S . "
rows = [
    ("exclusive or as it is written", NAT + "eq _*_(X,X) = mt [variant] . eq _*_(X,mt) = X [variant] . "),
    ("exclusive or with its coherent equation", NAT + "eq _*_(X,X) = mt [variant] . eq _*_(X,X,Z) = Z [variant] . eq _*_(X,mt) = X [variant] . "),
    ("exclusive or with an identity", UNIT.replace("op - : S -> S . ", "") + "eq _*_(X,X,Y) = Y [variant] . "),
    ("group with an identity", UNIT + "eq _*_(X,-(X),Y) = Y [variant] . eq -(mt) = mt [variant] . eq -(-(X)) = X [variant] . eq -(_*_(X,-(Y))) = _*_(Y,-(X)) [variant] . "),
    ("addition", "sort Nat . op 0 : -> Nat . op s : Nat -> Nat . op + : Nat Nat -> Nat . vars X Y : Nat . eq +(0,Y) = Y [variant] . eq +(s(X),Y) = s(+(X,Y)) [variant] . "),
    ("encryption", "sorts Msg Key . op a : -> Msg . op k : -> Key . ops enc dec : Msg Key -> Msg . var X : Msg . var Y : Key . eq dec(enc(X,Y),Y) = X [variant] . "),
]
text = open("src/tests/testing.rt").read()
shown = "\n".join("%s => %s" % row for row in rows if word in row[0])
open("src/tests/testing.rt", "w").write(text.replace("@" + "ROWS@", shown))
FILL
rt fmt > /dev/null
if [ "$1" = try ]; then rt try --test --seconds 3000; else (cd "$there" && git init -q . && rt ci fvn_tests_critical) | grep -E ' us$|passed|FAILED'; fi
