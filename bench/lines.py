"""Random lines with six new variables, and what their times say.

`rows` writes rows: a size, a problem and bindings, each twice, with six new variables and with one more. `told` reads
times, in the order of the rows, and writes for each size how often longer a line with six takes, and the least time of
answers of each size.
"""
import random
import sys

SIZES = [10, 15, 30, 100, 300, 1000]
LINES = 20


def term(size, draw):
    if size <= 1:
        return ('v', draw.randrange(6)) if draw.random() < 0.6 else (draw.choice('ab'), [])
    name = draw.choice(['f', 'g', 'p', 'c', '+', '+'])
    arity = {'g': 1, 'f': 2, 'p': 3, 'c': 2}.get(name) or draw.choice([2, 3, 4, 5])
    if size - 1 < arity:
        name, arity = 'g', 1
    cuts = sorted(draw.sample(range(1, size - 1), arity - 1)) if arity < size - 1 else list(range(1, arity))
    parts = [b - a for a, b in zip([0] + cuts, cuts + [size - 1])]
    args = [term(part, draw) for part in parts]
    if name == '+':
        args = [u for t in args for u in (t[1] if t[0] == '+' else [t])]
    return (name, args)


def variables(t):
    return {t[1]} if t[0] == 'v' else set().union(*[variables(u) for u in t[1]], set())


def written(t, names):
    if t[0] == 'v':
        return names[t[1]]
    name = '_+_' if t[0] == '+' else t[0]
    return name if not t[1] else name + '(' + ','.join(written(u, names) for u in t[1]) + ')'


def symbols(t):
    own = 1 if t[0] != '+' else len(t[1]) - 1
    return 1 if t[0] == 'v' else own + sum(map(symbols, t[1]))


def line(size, draw):
    # A sum of n terms has n - 1 symbols of its own, and a text may have 1,000 in one term: the greatest lines are cut to that.
    size = min(size, 850)
    while True:
        number = draw.randint(1, min(6, size // 2))
        cuts = sorted(draw.sample(range(1, size), number - 1))
        values = [term(b - a, draw) for a, b in zip([0] + cuts, cuts + [size])]
        if len(set().union(*map(variables, values))) == 6 and sum(map(symbols, values)) <= 1000:
            return values


def rows():
    draw = random.Random(1)
    for size in SIZES:
        for _ in range(LINES):
            values = line(size, draw)
            names = ['Q%d:S' % n for n in draw.sample(range(1, 7), 6)]
            for more in [[], ['Q7:S']]:
                texts = [written(t, names) for t in values] + (more or ['a'])
                left = ['X%d:S' % n for n in range(len(texts))]
                problem = left[0]
                for x in left[1:]:
                    problem = 'f(%s,%s)' % (problem, x)
                bindings = ', '.join('%s --> %s' % pair for pair in zip(left, texts))
                print('%d %s =? a # {%s}' % (size, problem, bindings))


def told():
    size, times, answers = None, {}, {}
    for row in sys.stdin:
        words = row.split()
        if words[:1] == ['size:']:
            size, first = int(words[1]), True
        elif words[:1] == ['line:'] and first:
            times.setdefault(size, []).append(int(words[1]))
            first = False
        elif words[:1] == ['answer:']:
            answers.setdefault(int(words[1]), []).append(int(words[2]))
    for size, all_times in times.items():
        ratios = [six / seven for six, seven in zip(all_times[::2], all_times[1::2])]
        mean = sum(ratios) / len(ratios)
        print('lines of %d symbols: %.1f renderings on average, at most %.1f' % (size, mean, max(ratios)))
    for size, all_times in answers.items():
        print('an answer of %d bytes: %d microseconds, %.1f a kilobyte' % (size, min(all_times), 1000 * min(all_times) / size))


{'rows': rows, 'told': told}[sys.argv[1]]()
