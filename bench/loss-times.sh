#!/usr/bin/env bash
# Times of `sort_loss` and `first_left_fault` on equations with as many instances as the limits let through: sums, nested operators of eight arguments and chains of 24 variables over two sorts, of 15 over three, and of 12 with an identity. It proves nothing: run at the top of the repository, it works in a copy. ROWS=WORD takes only the rows with the word in their name, and SIZE=N as many variables of each kind as N is to 24.
set -e
here=$(cd "$(dirname "$0")/.." && pwd)
there=$(mktemp -d)
trap 'rm -rf "$there"' EXIT
python3 "$here/bench/crates.py" "$there" 'loss_times: fvn_cohere fvn_module fvn_module_loading fvn_terms'
mv "$there/crates.txt" "$there/lines"
touch "$there/crates.txt"
cd "$there/crates" && rt new loss_times start_io > /dev/null && cd loss_times
mv "$there/lines" "$there/crates.txt"
rm -rf proofs/* specs/* stdin stdout src/* BUILD.bazel ../BUILD.bazel
cat > src/main.rt <<'PROGRAM'
//! Times of the search for losses and collapses.
#![tactic(auto)]

use fvn_cohere::LeftFault;
use fvn_module::{Module, read_module};
use fvn_module_loading::{first_left_fault, sort_loss};
use fvn_terms::NoMemory;
use std::alloc::Global;
use std::io;
use std::time::Instant;

const ROWS: &str = "@ROWS@";

fn loss(alloc: Global, module: &Module) -> usize {
    match sort_loss(alloc, module) {
        Ok(Some(number)) => number,
        Ok(None) => 0,
        Err(_) => 99,
    }
}

fn fault(alloc: Global, module: &Module) -> &'static str {
    match first_left_fault(alloc, module) {
        Ok(None) => "none",
        Ok(Some(LeftFault::TooManyInstances(_))) => "many",
        Ok(Some(LeftFault::BecomesVariable(_))) => "variable",
        Ok(Some(LeftFault::BecomesIdentity(_))) => "identity",
        Err(_) => "no memory",
    }
}

fn report(rt: &HostRuntime, name: &str, text: &str) -> io::Result<()> {
    match read_module(rt.alloc(), text.as_bytes()) {
        Err(_) => println!(rt; "{name}: the module is refused"),
        Ok(module) => {
            let start = Instant::now(rt)?;
            let wrong = fault(rt.alloc(), &module);
            let first = start.elapsed(rt)?.as_micros();
            let again = Instant::now(rt)?;
            let lost = loss(rt.alloc(), &module);
            let second = again.elapsed(rt)?.as_micros();
            println!(rt; "{name}: fault {wrong}, {first} us; loss {lost}, {second} us")
        }
    }
}

fn main(rt: HostRuntime) -> io::Result<()> {
    for row in ROWS.lines() {
        if let Some((name, text)) = row.split_once(" => ") {
            report(&rt, name, text)?;
        }
    }
    Ok(())
}
PROGRAM
python3 - "${ROWS:-}" "${SIZE:-24}" <<'FILL'
import sys

word, size = sys.argv[1], int(sys.argv[2])
TWO, TURNED = "sorts A B . subsort A < B . ", "sorts B A . subsort A < B . "
THREE = "sorts A C D . subsorts A C < D . "
SUM, LOW = "op + : B B -> B [assoc comm] . ", "op + : A A -> A [ditto] . "
PAIR, LOW_PAIR = "op m : B B -> B [comm] . ", "op m : A A -> A [comm] . "
EIGHT, LOW_EIGHT = "op f : B B B B B B B B -> B . ", "op f : A A A A A A A A -> A . "
G = "op g : B -> B . "


def names(sort, n):
    return ["X%d:%s" % (i + 1, sort) for i in range(n)]


def total(vars):
    return "+(%s)" % ",".join(vars)


def chain(vars):
    return vars[0] if len(vars) == 1 else "m(%s,%s)" % (vars[0], chain(vars[1:]))


def nested(vars):
    all = (vars * 24)[:24]
    return "f(f(%s),f(%s),f(%s),%s)" % (",".join(all[:8]), ",".join(all[8:16]), ",".join(all[16:]), ",".join(all[19:]))


rows = []


def row(name, declared, left, right):
    if word in name:
        rows.append("%s => fmod M is %seq %s = %s [variant] . endfm" % (name, declared, left, right))


B = names("B", size)
for title, form, high, low in (("sum", total, SUM, LOW), ("chain", chain, PAIR, LOW_PAIR), ("nested", nested, EIGHT, LOW_EIGHT)):
    row(title + ", its first", TWO + high, form(B), B[0])
    row(title + ", its last", TWO + high, form(B), B[-1])
    row(title + ", turned round", TWO + high, form(B), form(B[::-1]))
    row(title + " of two ranks, its first", TWO + high + low, form(B), B[0])
    row(title + " of two ranks, its last", TWO + high + low, form(B), B[-1])
    row(title + " of two ranks, turned round", TWO + high + low, form(B), form(B[::-1]))
    row(title + " of two ranks, one sort high", TWO + high + low + G, form(B), "g(%s)" % B[-1])
    row(title + " of two ranks, high sort first", TURNED + high + low + G, form(B), "g(%s)" % B[-1])
K = ["X%d:[B]" % i for i in range(size * 5 // 8)]
row("sum of kinds", TWO + SUM, total(K), K[0])
D = names("D", size * 5 // 8)
RANKS = "op + : D D -> D [assoc comm] . "
row("sum of three sorts", THREE + RANKS, total(D), D[-1])
row("sum of three sorts, turned round", THREE + RANKS, total(D), total(D[::-1]))
RANKS += "op + : A A -> A [ditto] . op + : C C -> C [ditto] . "
row("sum of three sorts and ranks, its last", THREE + RANKS, total(D), D[-1])
row("sum of three sorts and ranks, turned round", THREE + RANKS, total(D), total(D[::-1]))
RANKS = "op + : D D -> D [assoc comm] . op + : A A -> A [ditto] . op + : A C -> C [ditto] . op + : C C -> A [ditto] . "
row("sum of parities, its last", THREE + RANKS, total(D), D[-1])
row("sum of parities, turned round", THREE + RANKS, total(D), total(D[::-1]))
F = ["T%d" % i for i in range(1, 16)]
FIFTEEN = "sorts %s . subsorts %s . " % (" ".join(F), " < ".join(F))
FIFTEEN += " ".join("op + : %s %s -> %s [%s] ." % (s, s, s, "assoc comm" if s == F[-1] else "ditto") for s in F[::-1]) + " "
T = names(F[-1], size // 4)
row("sum of 15 sorts, its last", FIFTEEN, total(T), T[-1])
row("sum of 15 sorts, turned round", FIFTEEN, total(T), total(T[::-1]))
E = names("B", size // 2)
UNIT = "op e : -> A . op + : B B -> B [assoc comm id: e] . "
row("sum with an identity, its last", TWO + UNIT, total(E), E[-1])
row("sum with an identity, turned round", TWO + UNIT, total(E), total(E[::-1]))
row("sum with an identity of two ranks, turned round", TWO + UNIT + LOW, total(E), total(E[::-1]))
row("operator over a sum with an identity", TWO + UNIT + G, "g(%s)" % total(E), total(E[::-1]))
text = open("src/main.rt").read()
open("src/main.rt", "w").write(text.replace("@" + "ROWS@", "\n".join(rows)))
FILL
rt fmt > /dev/null
rt try --seconds 3000
