#!/usr/bin/env python3
"""Each allocation of a run of each command is refused in turn: the status is then 8 with nothing written, or the answer comes.

A library that is loaded before the program's own (LD_PRELOAD, made here with cc) counts the calls of malloc and its like,
and refuses the one with a given number. Each row is run once as it is, and then once for each allocation that it made, over
`./fvn` or the program behind --fvn. With --only WORD the rows whose name has the word; with --all-after the later
allocations are refused too; with --every N each N-th number alone, for long runs.
"""
import argparse
import os
import subprocess
import sys
import tempfile
import time

SHIM = r"""
#define _GNU_SOURCE
#include <errno.h>
#include <stdlib.h>
#include <stdio.h>
#include <unistd.h>
#include <fcntl.h>
#include <sys/syscall.h>
static unsigned long made, refused;
static int later, ready;
static void begin(void) {
  if (ready) return;
  ready = 1;
  const char *at = getenv("REFUSED_ALLOCATION");
  refused = at ? strtoul(at, 0, 10) : 0;
  later = getenv("REFUSED_LATER") != 0;
}
static int no(void) {
  begin();
  unsigned long n = __atomic_add_fetch(&made, 1, __ATOMIC_SEQ_CST);
  if (refused && (n == refused || (later && n > refused))) { errno = ENOMEM; return 1; }
  return 0;
}
extern void *__libc_malloc(size_t);
extern void *__libc_calloc(size_t, size_t);
extern void *__libc_realloc(void *, size_t);
extern void *__libc_memalign(size_t, size_t);
void *malloc(size_t n) { return no() ? 0 : __libc_malloc(n); }
void *calloc(size_t n, size_t m) { return no() ? 0 : __libc_calloc(n, m); }
void *realloc(void *p, size_t n) { return no() ? 0 : __libc_realloc(p, n); }
void *memalign(size_t a, size_t n) { return no() ? 0 : __libc_memalign(a, n); }
void *aligned_alloc(size_t a, size_t n) { return no() ? 0 : __libc_memalign(a, n); }
int posix_memalign(void **p, size_t a, size_t n) {
  if (no()) return ENOMEM;
  *p = __libc_memalign(a, n);
  return *p ? 0 : ENOMEM;
}
static void told(void) {
  const char *to = getenv("ALLOCATIONS_MADE");
  if (!to) return;
  int f = open(to, O_WRONLY | O_CREAT | O_TRUNC, 0600);
  if (f < 0) return;
  char text[32];
  int k = 31;
  unsigned long n = made;
  do { text[--k] = '0' + n % 10; n /= 10; } while (n);
  if (write(f, text + k, 31 - k) < 0) return;
  close(f);
}
void _exit(int status) {
  told();
  for (;;) syscall(SYS_exit_group, status);
}
"""

FREE = "fmod FREE is\n  sort S .\n  ops a b : -> S .\n  op p : S S -> S .\n  vars X Y : S .\nendfm\n"
SUMS = "fmod SUMS is sort S . ops a b : -> S . op _+_ : S S -> S [assoc comm] . op g : S -> S . endfm\n"
BAGS = "fmod BAGS is sorts E B . subsort E < B . op mt : -> B . op _;_ : B B -> B [assoc comm id: mt] . ops a b : -> E . endfm\n"
XOR = ("fmod XOR is sorts Nat NatSet . subsort Nat < NatSet . op 0 : -> Nat . op mt : -> NatSet . op _*_ : NatSet NatSet -> NatSet "
       "[assoc comm] . vars X Z : [NatSet] . eq _*_(X,X) = mt [variant] . eq _*_(X,X,Z) = Z [variant] . eq _*_(X,mt) = X [variant] . endfm\n")
PLUS = ("fmod PLUS is sort Nat . op 0 : -> Nat . op s : Nat -> Nat . op + : Nat Nat -> Nat . vars X Y : Nat . "
        "eq +(0,Y) = Y [variant] . eq +(s(X),Y) = s(+(X,Y)) [variant] . endfm\n")
ENC = ("fmod ENC is sorts Msg Key . op a : -> Msg . op k : -> Key . ops enc dec : Msg Key -> Msg . vars X M : Msg . vars Y K : Key . "
       "eq dec(enc(M,K),K) = M [variant] . endfm\n")
CHAIN = ("fmod CHAIN is sorts A B C . subsorts A < B < C . op f : C C -> C [assoc comm] . op f : B B -> B [ditto] . "
         "op f : A A -> A [ditto] . vars X Y Z : C . eq f(X,Y,Z) = f(Z,Y,X) [variant] . endfm\n")

AC = "fmod AC is sort S . ops a b : -> S . op g : S -> S . op c : S S -> S [comm] . op _+_ : S S -> S [assoc comm] . vars X Y Z U V : S . endfm\n"
LOOP = "fmod LOOP is sort S . op a : -> S . op f : S -> S . var X : S . eq f(X) = f(X) [variant] . endfm\n"
GROW = ("fmod GROW is sort S . op a : -> S . op g : S -> S . op p : S S -> S . var X : S . eq g(X) = g(p(X,X)) [variant] . endfm\n")
RAISE = "fmod RAISE is sorts A B . subsort A < B . op f : B -> A . op g : B -> B . var X : B . eq f(X) = g(X) [variant] . endfm\n"
PARTS = ("fmod PARTS is sort S . ops a b : -> S . op f : S S -> S . op _+_ : S S -> S [assoc comm] . "
         "eq f(_+_(A0:S,A1:S,A2:S,A3:S,A4:S),a) = b [variant] . endfm\n")
FIVE, OTHERS = "_+_(B0:S,B1:S,B2:S,B3:S,B4:S)", "_+_(C0:S,C1:S,C2:S,C3:S,C4:S)"
LARGE = "p(V0:S,p(V1:S,p(V2:S,p(V3:S,p(V4:S,p(V5:S,p(V6:S,p(V7:S,V8:S)))))))) =? " + (
    "p(p(V1:S,V1:S),p(p(V2:S,V2:S),p(p(V3:S,V3:S),p(p(V4:S,V4:S),p(p(V5:S,V5:S),p(p(V6:S,V6:S),p(p(V7:S,V7:S),p(p(V8:S,V8:S),"
    "p(V9:S,V9:S)))))))))")

ROWS = [
    ("check free", ["check"], FREE),
    ("check loss of a sort", ["check"], RAISE),
    ("check left side at fault", ["check"], "fmod M is sort S . op e : -> S . op h : S S -> S [assoc comm id: e] . var X : S . eq h(X,X) = e [variant] . endfm\n"),
    ("check chain of sorts", ["check"], CHAIN),
    ("check refused", ["check"], "fmod M is sort S . op a : S -> . endfm\n"),
    ("unify two sums of two", ["unify", "_+_(X,Y) =? _+_(U,V)"], AC),
    ("unify a constant", ["unify", "a =? a"], AC),
    ("unify commutative", ["unify", "c(X,Y) =? c(a,g(Z))"], AC),
    ("unify two pairs", ["unify", "X =? g(Y) /\\ c(X,Z) =? c(Z,U)"], AC),
    ("unify bound basis", ["unify", FIVE + " =? " + OTHERS], AC),
    ("unify bound size", ["unify", LARGE], FREE),
    ("unify refused", ["unify", "X =? q"], AC),
    ("unify refused kinds", ["unify", "a =? k"], ENC),
    ("unify free", ["unify", "p(X,b) =? p(a,Y)"], FREE),
    ("unify ac", ["unify", "_+_(X:S,Y:S) =? _+_(Z:S,g(W:S))"], SUMS),
    ("unify acu with sorts", ["unify", "_;_(X:E,Y:B) =? _;_(a,Z:B)"], BAGS),
    ("unify none", ["unify", "a =? b"], FREE),
    ("variants xor", ["variants", "_*_(X:[NatSet],Y:[NatSet])"], XOR),
    ("variants levels", ["variants", "--levels=2", "+(X:Nat,Y:Nat)"], PLUS),
    ("variants workers", ["variants", "--workers=2", "dec(X,Y)"], ENC),
    ("variants kept", ["variants", "--variants=1", "+(X:Nat,Y:Nat)"], PLUS),
    ("variants steps", ["variants", "--steps=5", "f(a)"], LOOP),
    ("variants size", ["variants", "g(a)"], GROW),
    ("variants basis", ["variants", "f(" + FIVE + ",Y:S)"], PARTS),
    ("variants cause sorts", ["variants", "f(X)"], RAISE),
    ("variants refused", ["variants", "dec(X)"], ENC),
    ("vunify enc", ["vunify", "dec(X,k) =? a"], ENC),
    ("vunify none", ["vunify", "enc(X,k) =? a"], ENC),
    ("vunify levels", ["vunify", "--levels=2", "+(X:Nat,s(0)) =? s(s(0))"], PLUS),
    ("vunify kept", ["vunify", "--variants=1", "dec(X,k) =? a"], ENC),
    ("vunify steps", ["vunify", "--steps=5", "f(a) =? a"], LOOP),
    ("vunify size", ["vunify", "g(a) =? a"], GROW),
    ("vunify basis", ["vunify", "f(" + FIVE + ",Y:S) =? b"], PARTS),
    ("vunify cause sorts", ["vunify", "f(X) =? g(X)"], RAISE),
    ("vunify refused", ["vunify", "a =? k"], ENC),
    ("vunify xor", ["vunify", "_*_(X:[NatSet],Y:[NatSet]) =? mt"], XOR),
    ("verify", ["verify", "p(X,b) =? p(a,Y)", "{X:S --> a, Y:S --> b}"], FREE),
    ("verify steps", ["verify", "+(s(X),Y) =? Z:Nat", "{X:Nat --> 0, Y:Nat --> 0, Z:Nat --> s(0)}"], PLUS),
    ("verify no", ["verify", "_+_(X,a) =? b", "{X:S --> b}"], AC),
    ("verify bound steps", ["verify", "--steps=5", "f(a) =? a", "{}"], LOOP),
    ("verify bound size", ["verify", "g(a) =? a", "{}"], GROW),
    ("verify refused", ["verify", "X =? Y", "{X:S --> q}"], AC),
    ("verify refused sort", ["verify", "E:E =? a", "{E:E --> _;_(a,b)}"], BAGS),
    ("terminates", ["terminates", "+ : 2 1 1 , s : 1 1"], PLUS),
    ("terminates confluence", ["terminates", "enc : 1 1 1 , dec : 1 1 1"], ENC),
    ("terminates not shown", ["terminates", "+ : 2 1 1 , s : 1 0"], PLUS),
    ("terminates shape", ["terminates", "_+_ : 2 2 0"], AC),
    ("terminates refused", ["terminates", "q : 1"], PLUS),
    ("work", ["work", "2"], ""),
    ("usage", ["unify"], FREE),
]


def run(fvn, words, module, env):
    done = subprocess.run([fvn, *words], input=module.encode(), capture_output=True, env=env)
    return done.returncode, done.stdout


def main():
    args = argparse.ArgumentParser(description=__doc__)
    args.add_argument("--fvn", default="./fvn")
    args.add_argument("--only", default="")
    args.add_argument("--every", type=int, default=1)
    args.add_argument("--all-after", action="store_true")
    asked = args.parse_args()
    with tempfile.TemporaryDirectory() as folder:
        shim, told = folder + "/refusing.so", folder + "/made"
        with open(folder + "/refusing.c", "w") as f:
            f.write(SHIM)
        subprocess.run(["cc", "-O2", "-fPIC", "-shared", "-o", shim, folder + "/refusing.c"], check=True)
        plain = {**os.environ, "LD_PRELOAD": shim, "ALLOCATIONS_MADE": told}
        refusing = {**os.environ, "LD_PRELOAD": shim, **({"REFUSED_LATER": "1"} if asked.all_after else {})}
        bad = runs = 0
        for name, words, module in ROWS:
            if asked.only not in name:
                continue
            begun = time.time()
            want = run(asked.fvn, words, module, plain)
            with open(told) as f:
                count = int(f.read())
            answers = refused = 0
            wrong = []
            for n in range(1, count + 1, asked.every):
                got = run(asked.fvn, words, module, {**refusing, "REFUSED_ALLOCATION": str(n)})
                runs += 1
                if got == want:
                    answers += 1
                elif got == (8, b""):
                    refused += 1
                else:
                    wrong.append((n, got[0], got[1][:60]))
            bad += len(wrong)
            print("%-24s status %d, %6d allocations: %6d refused with status 8, %6d answered, %d otherwise %s (%.0f s)"
                  % (name, want[0], count, refused, answers, len(wrong), wrong[:3], time.time() - begun), flush=True)
        print("allocations: %d runs, %d otherwise" % (runs, bad))
    sys.exit(bad > 0)


main()
