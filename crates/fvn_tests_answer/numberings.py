#!/usr/bin/env python3
"""The lines of the tests' table, found by trying all numberings of their variables.

Each block of the table in src/tests.rt begins with the statements of a module. The rows behind it have a
problem, bindings of its variables, and the line that is printed. The bindings are printed here under each
numbering, arguments that may be exchanged in byte order, and the least text is compared with the row's line.
Rows with another line are printed, and the number of rows of each count of variables. With the word `make`
and a seed, rows of random bindings are printed.
"""
import itertools, os, random, re, sys

SPECIAL = '()[]{},'

def tokens(text):
    out, i = [], 0
    while i < len(text):
        c = text[i]
        if c in ' \t\n\r': i += 1
        elif c in SPECIAL: out.append(c); i += 1
        else:
            j, quoted = i, False
            while j < len(text) and '!' <= text[j] <= '~' and (text[j] not in SPECIAL or quoted):
                quoted = text[j] == '`'
                j += 1
            out.append(text[i:j]); i = j
    return out

class Module:
    def __init__(self, text):
        self.sorts, self.below, self.ops = [], set(), {}
        row, statement = tokens(text), []
        for t in row:
            if t == '.': self.statement(statement); statement = []
            else: statement.append(t)
        assert not statement, text

    def statement(self, st):
        head = st[0]
        if head in ('sort', 'sorts'): self.sorts += st[1:]
        elif head in ('subsort', 'subsorts'):
            groups, group = [], []
            for t in st[1:]:
                if t == '<': groups.append(group); group = []
                else: group.append(t)
            groups.append(group)
            for low, high in zip(groups, groups[1:]):
                self.below |= {(a, b) for a in low for b in high}
        elif head in ('op', 'ops'):
            at = st.index(':')
            names = st[1:at]
            if head == 'op': names = [''.join('`' + t if t in SPECIAL else t for t in names)]
            rest = st[at + 1:]
            arrow = rest.index('->') if '->' in rest else rest.index('~>')
            tail = rest[arrow + 1:]
            attributes = []
            if '[' in tail[1:]:
                cut = tail.index('[', 1)
                attributes = tail[cut + 1:-1]
            for name in names:
                axioms, identity = 'free', None
                if 'comm' in attributes: axioms = 'comm'
                if 'assoc' in attributes: axioms = 'sum'
                if 'id:' in attributes: identity = attributes[attributes.index('id:') + 1]
                self.ops[name] = (axioms, identity)
        else: assert False, st

    def kind_name(self, sort):
        """The first declared maximal sort of the component."""
        group, changed = {sort}, True
        while changed:
            changed = False
            for a, b in self.below:
                if (a in group) != (b in group): group |= {a, b}; changed = True
        for s in self.sorts:
            if s in group and not any(a == s for a, b in self.below): return s

# Terms: ('v', name, sort), where a kind is [S]; ('f', name, arguments)
def flat(m, name, args):
    axioms, identity = m.ops[name]
    if axioms != 'sum' or not args: return ('f', name, tuple(args))
    parts = []
    for a in args:
        if a[0] == 'f' and a[1] == name and a[2]: parts += a[2]
        elif identity is not None and a == ('f', identity, ()): pass
        else: parts.append(a)
    if not parts: return ('f', identity, ())
    return parts[0] if len(parts) == 1 else ('f', name, tuple(parts))

def read(m, row, i):
    if row[i] == '(':
        t, i = read(m, row, i + 1)
        assert row[i] == ')'
        return t, i + 1
    w = row[i]; i += 1
    if i < len(row) and row[i] == '(':
        args = []
        while row[i] != ')':
            t, i = read(m, row, i + 1)
            args.append(t)
        return flat(m, w, args), i + 1
    if w.endswith(':') and len(w) > 1 and i < len(row) and row[i] == '[':
        end = row.index(']', i)
        return ('v', w[:-1], '[' + m.kind_name(row[i + 1]) + ']'), end + 1
    if w in m.ops: return ('f', w, ()), i
    name, _, sort = w.rpartition(':')
    assert name and sort in m.sorts, w
    return ('v', name, sort), i

def bindings(m, text):
    row = tokens(text)
    assert row[0] == '{' and row[-1] == '}', text
    out, i = [], 1
    while row[i] != '}':
        x, i = read(m, row, i)
        assert row[i] == '-->', text
        t, i = read(m, row, i + 1)
        out.append((x, t))
        if row[i] == ',': i += 1
    return out

def asked(m, text):
    row = tokens(text.replace('=?', ' ').replace('/\\', ' '))
    out, i = [], 0
    while i < len(row):
        t, i = read(m, row, i)
        for x in variables(t):
            if x not in out: out.append(x)
    return out

def variables(t):
    if t[0] == 'v': return [t]
    out = []
    for u in t[2]:
        for x in variables(u):
            if x not in out: out.append(x)
    return out

def beside(text, special):
    """A special byte behind a text; after a backquote one space stands between."""
    return text + (' ' if text.endswith('`') else '') + special

def variable(name, sort):
    return beside(name + ':' + sort[:-1], ']') if sort.startswith('[') else name + ':' + sort

def shown(m, numbers, t):
    if t[0] == 'v': return variable('#%d' % numbers[t], t[2])
    if not t[2]: return t[1]
    args = [shown(m, numbers, u) for u in t[2]]
    if m.ops[t[1]][0] != 'free': args.sort(key=lambda s: s.encode())
    text = beside(t[1], '(')
    for i, a in enumerate(args): text = (beside(text, ',') if i else text) + a
    return beside(text, ')')

def line(m, numbers, term, values):
    text = '{'
    for i, (x, t) in enumerate(values):
        if i: text = beside(text, ',') + ' '
        text += variable(x[1], x[2]) + ' --> ' + shown(m, numbers, t)
    text = beside(text, '}')
    return text if term is None else shown(m, numbers, term) + ' ' + text

def least(m, kind, problem, given):
    xs, given = asked(m, problem), dict(bindings(m, given))
    values = [(x, given.get(x, x)) for x in xs]
    term = None
    if kind == 'v': term, values = values[0][1], values[1:]
    new = []
    for t in ([term] if term else []) + [t for _, t in values]:
        for x in variables(t):
            if x not in new: new.append(x)
    if len(new) > 6: return None, len(new)
    best = None
    for order in itertools.permutations(new):
        text = line(m, {x: i + 1 for i, x in enumerate(order)}, term, values)
        if best is None or text.encode() < best.encode(): best = text
    return best, len(new)

def table():
    text = open(os.path.join(os.path.dirname(os.path.abspath(__file__)), 'src/tests.rt')).read()
    body = re.search(r'const LINES: &str =\s*"(.*?)";', text, re.S).group(1).replace('\\\\', '\\')
    for block in body.split('\n\n'):
        head, *rows = block.split('\n')
        yield Module(head), rows

def check():
    counts, wrong = {}, 0
    for m, rows in table():
        for row in rows:
            kind, _, rest = row.partition(' ')
            given, _, want = rest.partition(' => ')
            problem, _, given = given.partition(' # ')
            best, n = least(m, kind, problem, given)
            counts[n] = counts.get(n, 0) + 1
            if best is not None and best != want: wrong += 1; print('row  ' + row + '\nhere ' + best)
    print('variables: ' + ', '.join('%d in %d' % (n, counts[n]) for n in sorted(counts)) + '; wrong: %d' % wrong)
    return wrong

def make(seed):
    """Random bindings in the module of constants, a unary, a commutative operator and a sum."""
    r = random.Random(seed)
    head = 'sort S . ops a b : -> S . op g : S -> S . op c : S S -> S [comm] . op f : S S -> S . op _+_ : S S -> S [assoc comm] .'
    m = Module(head)
    def term(names, depth):
        pick = r.random()
        if depth == 0 or pick < 0.3: return r.choice(names + ['a', 'b'] if r.random() < 0.3 else names) + (':S' if False else '')
        op, n = r.choice([('g', 1), ('c', 2), ('f', 2), ('_+_', 2), ('_+_', 3)])
        return op + '(' + ','.join(term(names, depth - 1) for _ in range(n)) + ')'
    made = 0
    while made < 40:
        n = made % 6 + 1
        names = ['Q%d:S' % i for i in range(n)]
        xs = ['X:S', 'Y:S', 'Z:S'][:r.randint(1, 3)]
        values = [term(names, 3) for _ in xs]
        text = ' '.join(values)
        if any(x not in text for x in names) or len(text) > 150: continue
        problem = ' =? '.join(xs) if len(xs) == 2 else (xs[0] + ' =? a' if len(xs) == 1 else 'f(%s,%s) =? %s' % tuple(xs))
        given = '{' + ', '.join(x + ' --> ' + t for x, t in zip(xs, values)) + '}'
        best, _ = least(m, 'u', problem, given)
        print('u ' + problem + ' # ' + given + ' => ' + best)
        made += 1

if __name__ == '__main__':
    if sys.argv[1:2] == ['make']: make(int(sys.argv[2]))
    else: sys.exit(check())
