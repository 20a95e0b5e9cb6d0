#!/usr/bin/env bash
# Times of `basis`: one row of n ones and n minus ones, chains x_i = 2 x_(i+1), and a long path. Run at the top of the repository; it works in a copy.
set -e
here=$(cd "$(dirname "$0")/.." && pwd)
there=$(mktemp -d)
trap 'rm -rf "$there"' EXIT
python3 "$here/bench/crates.py" "$there" fvn_lindio 'lindio_times: fvn_base fvn_lindio'
mv "$there/crates.txt" "$there/lines"
touch "$there/crates.txt"
cd "$there/crates" && rt new lindio_times start_io > /dev/null && cd lindio_times
mv "$there/lines" "$there/crates.txt"
rm -rf proofs/* specs/* stdin stdout src/*
cat > src/main.rt <<'PROGRAM'
//! Times of `basis`.
#![tactic(auto)]

use fvn_lindio::{LinFault, Row, System, basis};
use fvn_base::Seq;
use std::alloc::{AllocError, Global};
use std::io;
use std::time::Instant;

fn ones(alloc: Global, n: usize) -> Result<System, AllocError> {
    let mut row = Vec::new(alloc);
    for i in 0..2 * n {
        row.push(if i < n { 1 } else { -1 })?;
    }
    let mut rows = Vec::new(alloc);
    rows.push(Row { coefficients: Seq::from_vec(row) })?;
    Ok(System { columns: 2 * n, rows: Seq::from_vec(rows) })
}

fn chain(alloc: Global, n: usize) -> Result<System, AllocError> {
    let mut rows = Vec::new(alloc);
    for i in 0..n - 1 {
        let mut row = Vec::new(alloc);
        for j in 0..n {
            row.push(if j == i { 1 } else if j == i + 1 { -2 } else { 0 })?;
        }
        rows.push(Row { coefficients: Seq::from_vec(row) })?;
    }
    Ok(System { columns: n, rows: Seq::from_vec(rows) })
}

fn path(alloc: Global, n: usize) -> Result<System, AllocError> {
    let mut row = Vec::new(alloc);
    row.push(65535)?;
    row.push(-1)?;
    for _ in 2..n {
        row.push(0)?;
    }
    let mut rows = Vec::new(alloc);
    rows.push(Row { coefficients: Seq::from_vec(row) })?;
    Ok(System { columns: n, rows: Seq::from_vec(rows) })
}

fn report(rt: &HostRuntime, name: &str, n: usize, system: &System) -> io::Result<()> {
    let start = Instant::now(rt)?;
    let answer = basis(rt.alloc(), system, 1000000);
    let spent = start.elapsed(rt)?.as_micros();
    match answer {
        Ok(list) => println!(rt; "{name} {n}: {} solutions, {spent} us", list.len()),
        Err(LinFault::TooMany(k)) => println!(rt; "{name} {n}: too many at {k}, {spent} us"),
        Err(LinFault::TooWide(k)) => println!(rt; "{name} {n}: too wide at {k}, {spent} us"),
        Err(LinFault::NoMemory) => println!(rt; "{name} {n}: no memory, {spent} us"),
    }
}

fn main(rt: HostRuntime) -> io::Result<()> {
    for n in 2..13usize {
        report(&rt, "ones", n, &ones(rt.alloc(), n)?)?;
    }
    for n in [20usize, 40] {
        report(&rt, "ones", n, &ones(rt.alloc(), n)?)?;
    }
    for n in [2usize, 4, 8, 12, 16, 17, 18] {
        report(&rt, "chain", n, &chain(rt.alloc(), n)?)?;
    }
    report(&rt, "path", 2, &path(rt.alloc(), 2)?)?;
    report(&rt, "path", 100, &path(rt.alloc(), 100)?)?;
    Ok(())
}
PROGRAM
rt try
