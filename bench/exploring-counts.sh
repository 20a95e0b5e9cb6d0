#!/usr/bin/env bash
# How much an exploration by levels goes through: levels, variants that are kept and given, members that were expanded, children that were found, variants that were profiled, coverings that were asked, and what answered them: marks, sorts of values that are variables, profiles, heads, or matching. Unifiers of the solver, variants without terms, are not counted. One worker. It proves nothing: run at the top of the repository, it works in a copy, to whose code it adds counters. ROWS=FILE takes other rows than those below.
set -e
here=$(cd "$(dirname "$0")/.." && pwd)
there=$(mktemp -d)
trap 'rm -rf "$there"' EXIT
python3 "$here/bench/crates.py" "$there" fvn_tests_folding
# Each line has the name of a module, the levels, kept variants and unifiers that are allowed, and an equation of which the right side is explored.
cat > "$there/rows" <<'TABLE'
XOR 9 2000 4096 term(X,Y,Z,W) = *(X,Y) => .
XOR 9 2000 4096 term(X,Y,Z,W) = *(X,Y,Z) => .
XOR 9 2000 4096 term(X,Y,Z,W) = *(X,Y,Z,W) => .
ENC 9 2000 4096 term(A,B,C,D,E,F,G,H,I,J,K,L) = tuple(dec(A,G),dec(B,H),dec(C,I),dec(D,J),dec(E,K),dec(F,L)) => .
TABLE
[ -z "$ROWS" ] || cp "$ROWS" "$there/rows"
cd "$there/crates"
cat > fvn_signature/src/counts.rt <<'PROGRAM'
//! What a script counts.
use std::sync::atomic::{AtomicU64, Ordering};

/// Counters, all of them zero.
pub struct Counts {
    pub children: AtomicU64,
    pub profiles: AtomicU64,
    pub asked: AtomicU64,
    pub past_marks: AtomicU64,
    pub past_sorts: AtomicU64,
    pub past_profiles: AtomicU64,
    pub past_heads: AtomicU64,
    pub found: AtomicU64,
}

impl Drop for Counts {
    fn drop(self) {
        let Counts {
            children: _,
            profiles: _,
            asked: _,
            past_marks: _,
            past_sorts: _,
            past_profiles: _,
            past_heads: _,
            found: _,
        } = self;
    }
}

impl Counts {
    /// Counters of nothing.
    pub fn new() -> Counts {
        Counts {
            children: AtomicU64::new(0),
            profiles: AtomicU64::new(0),
            asked: AtomicU64::new(0),
            past_marks: AtomicU64::new(0),
            past_sorts: AtomicU64::new(0),
            past_profiles: AtomicU64::new(0),
            past_heads: AtomicU64::new(0),
            found: AtomicU64::new(0),
        }
    }
}

/// So many more.
pub fn note(count: &AtomicU64, more: usize) {
    count.fetch_add(more as u64, Ordering::SeqCst);
}

/// How many were counted.
pub fn noted(count: &AtomicU64) -> u64 {
    count.load(Ordering::SeqCst)
}
PROGRAM
python3 - "$there/rows" <<'CHANGES'
import re, sys

def change(path, *pairs):
    text = open(path).read()
    for old, new in pairs:
        if text.count(old) != 1:
            sys.exit(f"exploring-counts.sh: {path} has {text.count(old)} times: {old}")
        text = text.replace(old, new)
    open(path, "w").write(text)

change("fvn_signature/src/lib.rt",
       ("mod draft;\n", "mod counts;\nmod draft;\n"),
       ("pub use draft::Draft;\n", "pub use counts::{Counts, note, noted};\npub use draft::Draft;\n"))
change("fvn_signature/src/queries/signature.rt",
       ("    direct: Vec<Seq<SortId>>,\n}", "    direct: Vec<Seq<SortId>>,\n    pub counts: Counts,\n}"),
       ("            direct: _,\n", "            direct: _,\n            counts: _,\n"),
       ("Ok(Signature { draft, direct })", "Ok(Signature { draft, direct, counts: Counts::new() })"),
       ("use crate::draft::Draft;\n", "use crate::counts::Counts;\nuse crate::draft::Draft;\n"))
change("fvn_cover/src/covering.rt",
       ("use fvn_signature::Signature;\n", "use fvn_signature::{Signature, note};\n"),
       ("        if !may_reach_all(", "        let one = self.variant.terms.as_slice().len().min(1);\n        note(&sig.counts.past_marks, one);\n        if !may_reach_all("),
       ("        if !self.profile.may_cover(", "        note(&sig.counts.past_sorts, one);\n        if !self.profile.may_cover("),
       ("        if !self.have_heads_of(", "        note(&sig.counts.past_profiles, one);\n        if !self.have_heads_of("),
       ("        let found = matches_both(", "        note(&sig.counts.past_heads, one);\n        let found = matches_both("),
       ("        Ok(found.is_some())", "        if found.is_some() {\n            note(&sig.counts.found, one);\n        }\n        Ok(found.is_some())"))
change("fvn_cover/src/keeping.rt",
       ("use fvn_signature::Signature;\n", "use fvn_signature::{Signature, note};\n"),
       ("        if !self.marks.may_cover(", "        note(&sig.counts.asked, self.variant.terms.as_slice().len().min(1));\n        if !self.marks.may_cover("),
       ("    let p = Profile::of(", "    note(&sig.counts.profiles, v.terms.as_slice().len().min(1));\n    let p = Profile::of("))
change("fvn_fold/src/levels.rt",
       ("use fvn_signature::Signature;\n", "use fvn_signature::{Signature, note};\n"),
       ("    let Gathered { candidates, end } = found;\n", "    let Gathered { candidates, end } = found;\n    note(&task.sig.counts.children, candidates.len());\n"))
modules = '''const MODULES: &str =
    "XOR sort S . op mt : -> S . op * : S S -> S [assoc comm] . op term : S S S S -> S . vars X Y Z W : [S] . eq *(X,X) = mt [variant] . eq *(X,X,Z) = Z [variant] . eq *(X,mt) = X [variant] .
ENC sorts Msg Key . ops enc dec : Msg Key -> Msg . op tuple : Msg Msg Msg Msg Msg Msg -> Msg . op term : Msg Msg Msg Msg Msg Msg Key Key Key Key Key Key -> Msg . vars A B C D E F X : Msg . vars G H I J K L Y : Key . eq dec(enc(X,Y),Y) = X [variant] .";
'''
counts = '''
// What was counted in the signature while this was explored.
fn shown_counts(alloc: Global, sig: &Signature, x: &Explored) -> Result<String, NoMemory> {
    let mut levels = 0;
    for member in x.kept.as_slice() {
        levels = member.depth;
    }
    let kept = x.kept.len();
    let given = x.variants.len();
    let end = end_name(&x.end);
    let c = &sig.counts;
    let children = noted(&c.children);
    let profiles = noted(&c.profiles);
    let asked = noted(&c.asked);
    let past_marks = noted(&c.past_marks);
    let past_sorts = noted(&c.past_sorts);
    let past_profiles = noted(&c.past_profiles);
    let past_heads = noted(&c.past_heads);
    let found = noted(&c.found);
    let out = format!(in alloc; "{end}: levels {levels}, kept {kept}, given {given}, children {children}, profiled {profiles}, coverings asked {asked}, left by marks {past_marks}, by sorts {past_sorts}, by profiles {past_profiles}, by heads {past_heads}, found by matching {found}")?;
    Ok(out)
}
'''
path = "fvn_tests_folding/src/tests/theories.rt"
text = open(path).read()
text = re.sub(r'const MODULES: &str =.*?";\n', lambda m: modules, text, flags=re.S)
text = re.sub(r'const ROWS: &str = ".*?";\n', lambda m: 'const ROWS: &str = "' + open(sys.argv[1]).read().strip() + '";\n', text, flags=re.S)
open(path, "w").write(text + counts)
change(path,
       ("use fvn_signature::Signature;\n", "use fvn_signature::{Signature, noted};\n"),
       ("    shown_count(alloc, &x)\n", "    shown_counts(alloc, sig, &x)\n"),
       (' eq term(X,Y,Z) = "', ' eq "'),
       ("    ensures workers { result.workers ≡ 2 }", "    ensures workers { result.workers ≡ 1 }"),
       ("        workers: 2,", "        workers: 1,"),
       ("    rt: &R,\n    alloc: Global,\n    line: &str,", "    rt: &R,\n    out: &HostRuntime,\n    alloc: Global,\n    line: &str,"),
       ("assert_row(&rt, rt.alloc(), line)?;", "assert_row(&rt, &rt, rt.alloc(), line)?;"),
       ('    assert_eq!(rt; found.as_str(), row.want, "at {line}");', '    let term = row.term;\n    let _ = println!(out; "{term}: {found}");'))
change("fvn_tests_folding/src/tests.rt", ("mod meetings;\nmod rows;\n", ""))
CHANGES
cd fvn_tests_folding
rm src/tests/meetings.rt src/tests/rows.rt
rt fmt > /dev/null
rt try --test --seconds "${SECONDS_EACH:-1000}"
