#!/usr/bin/env bash
# Times of `finish` beside those that Maude needs to load the same signature and use each operator once.
#
# Rows: 256 operators of eight arguments over 64 sorts with some ranks each; 256 sums over one kind of 64
# sorts, all with the same ranks; turned, such sums with ranks of their own; 64 ranks spread over eight
# places of a chain, a tree and a random order, of one operator and of 256. Times in microseconds; Maude's
# are of its whole run, and end at LIMIT seconds (60). Run at the top of the repository; it works in a copy,
# which it proves first. ROWS=sums shows the rows that begin so alone.
set -e
here=$(cd "$(dirname "$0")/.." && pwd)
limit=${LIMIT:-60}
rows=${ROWS:-}
there=$(mktemp -d)
trap 'rm -rf "$there"' EXIT
python3 "$here/bench/crates.py" "$there" 'sorts_times: fvn_base fvn_signature_draft fvn_sorts fvn_terms thiserror'
mkdir -p "$there/crates/sorts_times/src" "$there/crates/sorts_times/proofs/tests/all_names"
cd "$there/crates/sorts_times"
cat > src/lib.rt <<'LIBRARY'
//! Times of `finish`.
#![tactic(auto)]

#[cfg(test)]
mod tests;
LIBRARY
cat > proofs/tests/all_names/Invariants.antt <<'PROOF'
-- The invariant of the test of all names.
use Rattle.std.proofs.Common.{ℕ, ◌<◌, get_or}
use Rattle.fvn_terms.specs.declared.plain.SortId.{SortId}
use Rattle.fvn_signature_draft.specs.Collected.{Names}
use Rattle.sorts_times.proofs.tests.all_names.Given as goal

-- those so far name sorts
abbrev pub invariant-loop-s : goal.invariant-loop-s
invariant-loop-s l = (k : ℕ) (d : SortId) → k < l.s-index → Names l.sorts (get_or l.list k d)
PROOF
cat > src/tests.rt <<'PROGRAM'
//! Times of `finish` over signatures made by formulas, which the script beside writes as Maude modules too.
ghost use Rattle.std.specs.Prelude.{◌<◌, All, IsTrue};
ghost use Rattle.fvn_signature_draft.specs.Collected.{Names};

use fvn_base::Seq;
use fvn_sorts::{SigFault, SignatureBuilder};
use fvn_terms::{Axioms, NoMemory, OpId, Rank, SortId};
use std::alloc::{AllocError, AllocFailed, Global};
use std::process::Abort;
use std::time::Instant;

/// How 64 sorts are ordered.
#[derive(Clone, Copy)]
enum Order {
    Chain,
    Tree,
    Flat,
    Random,
}

/// The two sorts right above a sort that is not the first; where there is one, it stands there twice.
fn above(order: Order, s: u16) -> (u16, u16) {
    let s = u32::from(s).max(1);
    let (one, other) = match order {
        Order::Chain => (s - 1, s - 1),
        Order::Tree => ((s - 1) / 2, (s - 1) / 2),
        Order::Flat => (0, 0),
        Order::Random => (
            s.wrapping_mul(48271).wrapping_add(12345) / 64 % s,
            s.wrapping_mul(40503).wrapping_add(977) / 128 % s,
        ),
    };
    ((one & 63) as u16, (other & 63) as u16)
}

/// How the arguments of 64 ranks are spread over eight places.
#[derive(Clone, Copy)]
enum Args {
    Same,
    OnePlace,
    Mixed,
}

/// The argument of rank `r` at place `p`.
fn arg(args: Args, r: u16, p: u16) -> u16 {
    let s = match args {
        Args::Same => r,
        Args::OnePlace => {
            if r % 8 == p {
                r
            } else {
                0
            }
        }
        Args::Mixed => r
            .wrapping_mul(37)
            .wrapping_add(p.wrapping_mul(r.wrapping_mul(7).wrapping_add(5)).wrapping_mul(3)),
    };
    s & 63
}

fn name_of(order: Order) -> &'static str {
    match order {
        Order::Chain => "chain",
        Order::Tree => "tree",
        Order::Flat => "flat",
        Order::Random => "random",
    }
}

fn names(sorts: u16, s: SortId) -> bool
    ensures { IsTrue result → Names sorts s }
{
    s.0 < sorts
}

fn all_names(sorts: u16, list: &[SortId]) -> bool
    ensures { IsTrue result → All (Names sorts) list.now }
{
    for s in list {
        if !names(sorts, *s) {
            return false;
        }
    }
    true
}

fn sorts(rt: &impl Abort, alloc: Global, order: Order) -> Result<SignatureBuilder, NoMemory> {
    let mut builder = SignatureBuilder::new(alloc);
    for _ in 0..64u16 {
        assert!(rt; builder.sort_count() < 100);
        builder = builder.sort()?;
    }
    for s in 1..64u16 {
        let (one, other) = above(order, s);
        assert!(rt; s < builder.sort_count() && one < builder.sort_count());
        builder = builder.subsort(SortId(s), SortId(one))?;
        assert!(rt; s < builder.sort_count() && other < builder.sort_count());
        builder = builder.subsort(SortId(s), SortId(other))?;
    }
    Ok(builder)
}

/// One more declaration, which takes so many arguments of a sort to this sort.
fn with(
    rt: &impl Abort,
    alloc: Global,
    builder: SignatureBuilder,
    op: u16,
    s: u16,
    arity: usize,
    axioms: Axioms,
) -> Result<SignatureBuilder, NoMemory> {
    let mut args = Vec::new(alloc);
    for _ in 0..arity {
        args.push(SortId(s))?;
    }
    assert!(rt; op <= builder.op_count() && builder.op_count() < 1000);
    assert!(rt; all_names(builder.sort_count(), args.as_slice()));
    assert!(rt; names(builder.sort_count(), SortId(s)));
    let rank = Rank {
        args: Seq::from_vec(args),
        result: SortId(s),
    };
    builder.op(OpId(op), rank, false, axioms)
}

fn signature(
    rt: &impl Abort,
    alloc: Global,
    order: Order,
    arity: usize,
    ranks: u16,
    axioms: Axioms,
    turned: bool,
) -> Result<SignatureBuilder, NoMemory> {
    assert!(rt; ranks <= 64 && ranks > 0);
    let mut builder = sorts(rt, alloc, order)?;
    for op in 0..256u16 {
        for r in 0..ranks {
            let turn = if turned { op } else { 0 };
            let s = r.wrapping_mul(64 / ranks).wrapping_add(turn) & 63;
            builder = with(rt, alloc, builder, op, s, arity, axioms)?;
        }
    }
    Ok(builder)
}

/// Operators with 64 ranks each of eight arguments: to the sort with the rank's number, or from the last.
fn hostile(
    rt: &impl Abort,
    alloc: Global,
    order: Order,
    args: Args,
    reversed: bool,
    operators: u16,
) -> Result<SignatureBuilder, NoMemory> {
    let mut builder = sorts(rt, alloc, order)?;
    for op in 0..operators {
        for r in 0..64u16 {
            let mut list = Vec::new(alloc);
            for p in 0..8u16 {
                list.push(SortId(arg(args, r, p)))?;
            }
            let result = if reversed { 63 - r } else { r };
            assert!(rt; op <= builder.op_count() && builder.op_count() < 1000);
            assert!(rt; all_names(builder.sort_count(), list.as_slice()));
            assert!(rt; names(builder.sort_count(), SortId(result)));
            let rank = Rank {
                args: Seq::from_vec(list),
                result: SortId(result),
            };
            builder = builder.op(OpId(op), rank, false, Axioms::Free)?;
        }
    }
    Ok(builder)
}

/// The answer of `finish`, and how many microseconds it took.
fn timed(rt: &HostRuntime, builder: SignatureBuilder) -> (&'static str, u128) {
    let start = match Instant::now(rt) {
        Ok(start) => start,
        Err(_) => return ("no clock", 0),
    };
    let answer = builder.finish(rt.alloc());
    let spent = match start.elapsed(rt) {
        Ok(time) => time.as_micros(),
        Err(_) => 0,
    };
    match answer {
        Ok(_) => ("good", spent),
        Err(SigFault::NotPreregular(_, _)) => ("no-least-result", spent),
        Err(SigFault::NotAssocSorts(_, _, _, _)) => ("brackets", spent),
        Err(_) => ("another-fault", spent),
    }
}

fn shown_time(rt: &HostRuntime, row: &str, order: Order, what: &str, builder: SignatureBuilder) {
    let (answer, spent) = timed(rt, builder);
    let _ = println!(rt; "{row} {} {what} {answer} {spent}", name_of(order));
}

#[test]
fn plain(rt: HostRuntime) -> Result<(), NoMemory> {
    for (ranks, what) in [(1u16, "1"), (4, "4"), (16, "16")] {
        for order in [Order::Chain, Order::Tree, Order::Flat] {
            let builder = signature(&rt, rt.alloc(), order, 8, ranks, Axioms::Free, false)?;
            shown_time(&rt, "plain", order, what, builder);
        }
    }
    Ok(())
}

#[test]
fn sums(rt: HostRuntime) -> Result<(), NoMemory> {
    for (ranks, what) in [(1u16, "1"), (4, "4"), (16, "16"), (64, "64")] {
        for order in [Order::Chain, Order::Tree, Order::Flat, Order::Random] {
            let builder = signature(&rt, rt.alloc(), order, 2, ranks, Axioms::AssocComm, false)?;
            shown_time(&rt, "sums", order, what, builder);
        }
    }
    Ok(())
}

#[test]
fn turned_sums(rt: HostRuntime) -> Result<(), NoMemory> {
    for (ranks, what) in [(1u16, "1"), (4, "4"), (16, "16"), (64, "64")] {
        for order in [Order::Chain, Order::Tree, Order::Flat, Order::Random] {
            let builder = signature(&rt, rt.alloc(), order, 2, ranks, Axioms::AssocComm, true)?;
            shown_time(&rt, "turned", order, what, builder);
        }
    }
    Ok(())
}

fn spread(
    abort: &impl Abort,
    rt: &HostRuntime,
    operators: u16,
    row: &str,
) -> Result<(), NoMemory> {
    for order in [Order::Chain, Order::Tree, Order::Random] {
        for args in [Args::Same, Args::OnePlace, Args::Mixed] {
            for reversed in [false, true] {
                let builder = hostile(abort, rt.alloc(), order, args, reversed, operators)?;
                let what = match args {
                    Args::Same => {
                        if reversed {
                            "same-reversed"
                        } else {
                            "same"
                        }
                    }
                    Args::OnePlace => {
                        if reversed {
                            "one-place-reversed"
                        } else {
                            "one-place"
                        }
                    }
                    Args::Mixed => {
                        if reversed {
                            "mixed-reversed"
                        } else {
                            "mixed"
                        }
                    }
                };
                shown_time(rt, row, order, what, builder);
            }
        }
    }
    Ok(())
}

#[test]
fn spread_one(rt: HostRuntime) -> Result<(), NoMemory> {
    spread(&rt, &rt, 1, "spread-1")
}

#[test]
fn spread_all(rt: HostRuntime) -> Result<(), NoMemory> {
    spread(&rt, &rt, 256, "spread-256")
}
PROGRAM

# The same signature as a Maude module: row, order, and what varies.
module() {
  awk -v row="$1" -v order="$2" -v what="$3" '
    function above(s, which) {
      if (order == "chain") return s - 1
      if (order == "tree") return int((s - 1) / 2)
      if (order == "flat") return 0
      if (which == 0) return int((s * 48271 + 12345) / 64) % s % 64
      return int((s * 40503 + 977) / 128) % s % 64
    }
    function arg(kind, r, p) {
      if (kind == "same") return r
      if (kind == "one-place") return r % 8 == p ? r : 0
      return (r * 37 + p * (r * 7 + 5) * 3) % 64
    }
    function rank(f, r,   text, p, s) {
      text = "  op f" f " :"
      if (row ~ /^spread/) {
        for (p = 0; p < 8; p++) text = text " S" arg(kind, r, p)
        s = reversed ? 63 - r : r
      } else {
        s = (r * int(64 / what) + (row == "turned" ? f : 0)) % 64
        for (p = 0; p < arity; p++) text = text " S" s
      }
      print text " -> S" s (arity == 2 ? " [assoc comm]" : "") " ."
    }
    BEGIN {
      operators = row == "spread-1" ? 1 : 256
      arity = row == "sums" || row == "turned" ? 2 : 8
      kind = what; reversed = sub(/-reversed$/, "", kind)
      ranks = row ~ /^spread/ ? 64 : what
      print "fmod TIMES is"
      text = "  sorts"
      for (s = 0; s < 64; s++) text = text " S" s
      print text " ."
      for (s = 1; s < 64; s++) {
        print "  subsort S" s " < S" above(s, 0) " ."
        print "  subsort S" s " < S" above(s, 1) " ."
      }
      for (f = 0; f < operators; f++) for (r = 0; r < ranks; r++) rank(f, r)
      print "endfm"
      for (f = 0; f < operators; f++) {
        text = "X:S63"
        for (p = 1; p < arity; p++) text = text ", X:S63"
        print "red f" f "(" text ") ."
      }
    }'
}

rt test 2>&1 | grep -E '^ *(plain|sums|turned|spread-[0-9]+) |not proved|error|test result' | sed 's/^ *//' | while read -r row order what answer spent; do
  case $row in
    plain | sums | turned | spread-*)
      case $row in "$rows"*) ;; *) continue ;; esac
      module "$row" "$order" "$what" > module.maude
      start=$(date +%s%N)
      if timeout "$limit" maude -no-banner -batch module.maude < /dev/null > /dev/null 2>&1; then
        maude=$((($(date +%s%N) - start) / 1000))
      else
        maude="over ${limit}000000"
      fi
      echo "$row, $order, $what: $answer, $spent us; Maude $maude us"
      ;;
    *) echo "$row $order $what $answer $spent" ;;
  esac
done
