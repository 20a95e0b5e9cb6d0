#!/usr/bin/env bash
# Times of lines: random lines of 10 to 1,000 symbols with six new variables against the same lines with one more
# variable, whose numbering is fixed; and answers of 500 to 4,000 lines. It runs the crates without proving them.
# Run at the top of the repository; it works in a copy.
set -e
here=$(cd "$(dirname "$0")/.." && pwd)
there=$(mktemp -d)
trap 'rm -rf "$there"' EXIT
python3 "$here/bench/crates.py" "$there" fvn_tests_answer fvn_module
cd "$there/crates/fvn_tests_answer"
python3 "$here/bench/lines.py" rows > rows.txt
python3 - <<'PROGRAM'
rows = open('rows.txt').read()
printing = open('src/tests/printing.rt').read()
call = '''    let subst = filled(alloc, declared.signature(), problem, bindings)?;
    line_of(
        alloc,
        declared,
        &problem.names,
        &subst,
        problem.vars.as_slice(),
    )
'''
assert printing.count(call) == 1
timed = '''    let subst = filled(alloc, declared.signature(), problem, bindings)?;
    let names = &problem.names;
    let vars = problem.vars.as_slice();
    let mut line = line_of(alloc, declared, names, &subst, vars)?;
    if let Ok(start) = Instant::now(rt) {
        for _ in 0..20 {
            line = line_of(alloc, declared, names, &subst, vars)?;
        }
        if let Ok(time) = start.elapsed(rt) {
            let _ = println!(rt; "line: {time}", time = time.as_nanos());
        }
    }
    Ok(line)
'''
printing = printing.replace(call, timed)
for name in ['line_of_bindings', 'line_in', 'line_twice', 'line_of_texts']:
    printing = printing.replace('fn %s(\n    alloc: Global,' % name, 'fn %s(\n    rt: &HostRuntime,\n    alloc: Global,' % name)
    printing = printing.replace(' %s(alloc' % name, ' %s(rt, alloc' % name)
printing = printing.replace('use std::alloc::Global;\n', 'use std::alloc::Global;\nuse std::time::Instant;\n')
open('src/tests/printing.rt', 'w').write(printing)
ending = open('src/tests/ending.rt').read()
answer = "        Some(end) => answer_text(alloc, declared, lines, &end),\n"
assert ending.count(answer) == 1
timed = '''        Some(end) => {
            let started = Instant::now(rt);
            let text = answer_text(alloc, declared, lines, &end)?;
            if let Ok(start) = started {
                if let Ok(time) = start.elapsed(rt) {
                    let _ = println!(rt; "answer: {bytes} {time}", bytes = text.len(), time = time.as_micros());
                }
            }
            Ok(text)
        }
'''
ending = ending.replace(answer, timed).replace('pub fn answer_of(', 'pub fn answer_of(rt: &HostRuntime, ')
ending = ending.replace('use std::alloc::Global;\n', 'use std::alloc::Global;\nuse std::time::Instant;\n')
open('src/tests/ending.rt', 'w').write(ending)
tests = '''//! Times of lines and of answers.
mod ending;
mod filling;
mod printing;

use crate::tests::ending::answer_of;
use crate::tests::printing::line_of_texts;
use fvn_module::{Module, read_module};
use fvn_terms::NoMemory;
use std::alloc::Global;
use std::process::Abort;

const ROWS: &str = "%s";

fn module_of(rt: &impl Abort, alloc: Global) -> Result<Module, NoMemory> {
    let text = "fmod M is sort S . ops a b : -> S . op g : S -> S . op f : S S -> S . op p : S S S -> S . op c : S S -> S [comm] . op _+_ : S S -> S [assoc comm] . endfm";
    match read_module(alloc, text.as_bytes()) {
        Ok(module) => Ok(module),
        Err(_) => {
            assert!(rt; false, "no module");
            Err(NoMemory)
        }
    }
}

fn answer_row(alloc: Global, count: usize) -> Result<String, NoMemory> {
    let mut row = String::new(alloc);
    row.push_str("complete 1 | ")?;
    for i in 0..count {
        if 0 < i {
            row.push_str(" | ")?;
        }
        row.push_str("{X:S --> _+_(#1:S,#2:S,")?;
        let digits = format!(in alloc; "{}", (i %% 1000) * 7919 %% 1000)?;
        row.push_str(digits.as_str())?;
        row.push_str("), Y:S --> f(#1:S,g(#2:S))}")?;
        let more = format!(in alloc; "{i}")?;
        row.push_str(more.as_str())?;
    }
    Ok(row)
}

#[test]
fn times(rt: HostRuntime) -> Result<(), NoMemory> {
    let alloc = rt.alloc();
    let module = module_of(&rt, alloc)?;
    for row in ROWS.lines() {
        let (size, texts) = row.split_once(' ').unwrap_or((row, ""));
        let (problem, bindings) = texts.split_once(" # ").unwrap_or((texts, ""));
        let _ = println!(rt; "size: {size}");
        let (line, _again) = line_of_texts(&rt, alloc, &module, problem.as_bytes(), bindings.as_bytes())?;
        assert!(rt; line.as_slice().starts_with(b"{"), "at {row}");
    }
    for count in [500, 1000, 2000, 4000] {
        let row = answer_row(alloc, count)?;
        for _ in 0..5 {
            let _text = answer_of(&rt, alloc, &module, row.as_str())?;
        }
    }
    Ok(())
}
''' % rows
open('src/tests.rt', 'w').write(tests)
PROGRAM
rt try --test --seconds 3000 2>&1 | tee times.txt | grep -aE 'error|panicked|fails|at [0-9]+ |test result' | sed 's/^ *//'
python3 "$here/bench/lines.py" told < times.txt
