"""Scaled problems: for each family its module and, for each size, a problem in prefix form."""


def over(op, terms):
    """The operator over the terms, nested to the right."""
    out = terms[-1]
    for t in reversed(terms[:-1]):
        out = f"{op}({t}, {out})"
    return out


def variables(letter, count, sort="S"):
    return [f"{letter}{i}:{sort}" for i in range(1, count + 1)]


def sums(left, right, op="_+_", sort="S"):
    return f"{over(op, variables('X', left, sort))} =? {over(op, variables('Y', right, sort))}"


def tower(depth, x):
    out = x
    for _ in range(depth):
        out = f"c({out}, a)"
    return out


def doubled(depth):
    return " /\\ ".join(f"X{i + 1}:S =? p(X{i}:S, X{i}:S)" for i in range(1, depth + 1))


def alternations(count):
    """A sum with an identity below a sum, so many times, against one of constants."""
    left, right = "X0:S", "a"
    for i in range(1, count + 1):
        left, right = f"_+_(_&_({left}, X{i}:S), b)", f"_+_(_&_({right}, b), b)"
    return f"{left} =? {right}"


def pairs_below_sums(count):
    """So many commutative pairs below a sum, beside a variable."""
    left = [f"g(c(X{i}:S, a))" for i in range(1, count + 1)] + ["Z:S"]
    right = ["g(c(a, a))" if i % 2 else "g(c(a, b))" for i in range(1, count + 1)] + ["U:S"]
    return f"{over('_+_', left)} =? {over('_+_', right)}"


def marking(text):
    """A sum of markings: each word a letter and a number of variables of a sort, as A3:Coin, or one variable."""
    found = []
    for word in text.split():
        name, sort = word.split(":")
        count = int(name[1:] or 1)
        found += variables(name[0], count, sort)
    return over("__", found)


def markings(problems):
    return {text: " =? ".join(marking(side) for side in text.split(" = ")) for text in problems}


def pairs_in_one(count):
    """So many commutative pairs in one term without axioms, against pairs of constants."""
    left = [f"c(X{i}:S, Y{i}:S)" for i in range(1, count + 1)]
    return f"{over('p', left)} =? {over('p', ['c(a, b)'] * count)}"


def against_constants(letters, count):
    return f"{over('__', letters)} =? {over('__', [f'c{i}' for i in range(1, count + 1)])}"


def identities_in_one_another(count, other):
    """So many sums with one identity, each of a variable with itself, below sums with another one."""
    term = "X:S"
    for i in range(1, count + 1):
        term = f"_*_(_&_(V{i}:S, V{i}:S), {term})"
    return f"{term} =? {other}"


def known_parts(count):
    """Commutative pairs with a constant beside a sum that has one, below a sum, so many times, against the like."""
    left, right = "X:S", "Y:S"
    for i in range(1, count + 1):
        left, right = f"g(_+_(c({left}, a), _*_(a, V{i}:S)))", f"g(_+_(c({right}, a), _*_(a, B{i}:S)))"
    return f"{left} =? {right}"


def solved_sums(count):
    """So many pairs beside each other, of a variable and a sum of sums with another identity: each is solved as it stands."""
    return " /\\ ".join(f"Z{i}:S =? _*_(_&_(V{i}:S, W{i}:S), _*_(_&_(X{i}:S, Y{i}:S), _&_(U{i}:S, b)))" for i in range(1, count + 1))


def sums_in_turn(depth, above="_*_", below="_&_", letters="XVW"):
    """Sums by two operators in one another, so deep: in each a variable below and a summand beside it that has a constant."""
    x, v, w = letters
    term = f"{x}:S"
    for i in range(1, depth + 1):
        term = f"{above}({below}({term}, {v}{i}:S), {below}(a, {w}{i}:S))"
    return term


def thin_sums_in_turn(depth, above, below):
    """The same with a variable in place of the summand that has a constant."""
    term = "X:S"
    for i in range(1, depth + 1):
        term = f"{above}({below}({term}, V{i}:S), W{i}:S)"
    return term


def solved_tower(depth):
    """A tower against a variable: solved as it stands."""
    return f"{sums_in_turn(depth)} =? Z:S"


def loose_sums(count):
    """So many pairs that are solved as they stand, in each a variable that two operators use."""
    return " /\\ ".join(f"Z{i}:S =? _*_(_&_(V{i}:S, g(V{i}:S)), _*_(X{i}:S, _&_(X{i}:S, b)))" for i in range(1, count + 1))


def sums_below_sums(count, rest):
    """A summand with a constant beside one below another sum, so many times, against the like; their rests are one variable, or different ones."""
    left, right = "X:S", "Y:S"
    for i in range(1, count + 1):
        one, other = ("W:S", "W:S") if rest == "one" else (f"W{i}:S", f"U{i}:S")
        left = f"g(_&_(_*_(b, V{i}:S), _*_({left}, {one})))"
        right = f"g(_&_(_*_(b, B{i}:S), _*_({right}, {other})))"
    return f"{left} =? {right}"


def constants(first, last):
    return [f"c{i}" for i in range(first, last + 1)]


def beside(name, others, op="_+_"):
    """A variable beside such terms."""
    return over(op, [f"{name}:Sum"] + others)


def other_constants(count, op):
    """A variable beside so many constants against another one beside as many others."""
    return f"{beside('X', constants(1, count), op)} =? {beside('Y', constants(count + 1, 2 * count), op)}"


def half_of_them(count):
    """A variable beside constants against another one beside half of them."""
    return f"{beside('X', constants(1, 2 * count))} =? {beside('Y', constants(1, count))}"


def terms_of_two_operators(count):
    """A variable beside so many terms of an operator against another one beside as many of another operator."""
    left, right = [f"g(c{i})" for i in range(1, count + 1)], [f"p(Z{i}:Sum, c1)" for i in range(1, count + 1)]
    return f"{beside('X', left)} =? {beside('Y', right)}"


def towers_of_three(depth, x="X", v="V"):
    """Sums by three operators in one another, so deep: each level has a variable of the one below, and a variable twice."""
    term = f"{x}:S"
    for i in range(depth):
        term = f"_+_(_*_(_&_({term}, {v}{i}:S), {v}{i + 1}:S), {v}{i}:S)"
    return term


def sums_with_the_next(depth, x="X", v="V"):
    """Sums by two operators in one another, so deep: the variable beside a level stands in the next one too."""
    term = f"{x}:S"
    for i in range(depth):
        term = f"_&_(_*_({term}, {v}{i}:S), {v}{i + 1}:S)"
    return term


FAMILIES = [
    ("2 against n", "sums", {n: sums(2, n) for n in range(2, 8)}),
    ("3 against n", "sums", {n: sums(3, n) for n in (2, 3)}),
    ("coefficients", "sums", {n: f"{over('_+_', ['X1:S'] * n + ['X2:S'])} =? {over('_+_', ['Y1:S'] * 2 + ['Y2:S'] * 2)}" for n in (2, 3, 4)}),
    ("commutative chain", "sums", {n: " /\\ ".join(f"c(X{i}:S, Y{i}:S) =? c(a, b)" for i in range(1, n + 1)) for n in (2, 4, 6, 8, 10)}),
    ("pairs in one term", "pairs", {n: pairs_in_one(n) for n in (4, 6, 8, 10)}),
    ("commutative tower", "sums", {n: f"{tower(n, 'X:S')} =? {tower(n, 'b')}" for n in (2, 4, 6, 8)}),
    ("mixed operators", "sums", {n: f"_+_({over('_*_', variables('X', n))}, Z:S) =? _+_({over('_*_', variables('Y', 2))}, g(W:S))" for n in (2, 3, 4)}),
    ("aliens under sums", "sums", {n: f"{over('_+_', [f'g(X{i}:S)' for i in range(1, n + 1)])} =? {over('_+_', [f'g(Y{i}:S)' for i in range(1, n + 1)])}" for n in (2, 3, 4, 5)}),
    ("sums of identity", "zero", {n: sums(2, n) for n in (2, 3, 4)}),
    ("collapses", "zero", {n: f"_+_(X1:S, {over('_+_', [f'g(Y{i}:S)' for i in range(1, n + 1)])}) =? _+_(X2:S, g(Z:S))" for n in (1, 2, 3)}),
    ("bags of elements", "elements", {n: f"{over('_;_', variables('X', n, 'Elt') + ['R:Bag'])} =? {over('_;_', variables('Y', n, 'Elt') + ['T:Bag'])}" for n in (1, 2, 3)}),
    ("bags split in two", "elements", {n: f"{over('_;_', ['A:Bag', 'B:Bag'])} =? {over('_;_', variables('E', n, 'Elt'))}" for n in (2, 4, 6, 8)}),
    ("bags against bags", "elements", {n: sums(n, n, "_;_", "Bag") for n in (2, 3, 4)}),
    ("four bags against bags", "elements", {n: sums(4, n, "_;_", "Bag") for n in (5, 6)}),
    ("an element beside bags", "elements", {n: f"{over('_;_', ['E:Elt'] + variables('X', n, 'Bag'))} =? {over('_;_', ['F:Elt'] + variables('Y', n, 'Bag'))}" for n in (1, 2, 3)}),
    ("ways of sorts", "parity", {n: f"E:Even =? {over('s', variables('X', n, 'Nat'))}" for n in (3, 5, 7, 9)}),
    ("sorts that split", "evens", {n: f"{over('_+_', ['X1:Even', 'X2:Odd'])} =? {over('_+_', variables('Y', n, 'Nat'))}" for n in (2, 3)}),
    ("alternations", "mix", {n: alternations(n) for n in (1, 2, 3, 4)}),
    ("pairs below sums", "mix", {n: pairs_below_sums(n) for n in (1, 2, 3)}),
    ("markings", "vending", markings(
        [
            "A3:Coin M:Marking = B3:Coin N:Marking",
            "A4:Coin M:Marking = B3:Coin N:Marking",
            "A4:Coin M:Marking = B4:Coin N:Marking",
            "A2:Coin C:Item D:Marking = E2:Coin G:Item H:Marking",
            "A2:Coin C:Item D:Marking = E3:Marking H:Coin",
            "A5:Coin = M3:Marking",
        ]
    )),
    ("ring", "ring", {
        1: "_*_(_+_(_*_(X:S, Y:S), Z:S), W:S) =? _*_(_+_(_*_(Z:S, W:S), X:S), Y:S)",
        2: "_*_(_+_(X:S, _*_(Y:S, Z:S)), _+_(Y:S, _*_(X:S, W:S))) =? _*_(Z:S, W:S)",
        3: "_*_(_+_(X:S, Y:S), _*_(_+_(Z:S, W:S), X:S)) =? _*_(_+_(X:S, Z:S), _*_(_+_(Y:S, W:S), Y:S))",
    }),
    ("identities in one another", "identities", {n: identities_in_one_another(n, "_*_(Z:S, b)") for n in (3, 5, 7, 8)}),
    ("identities in one another, two rests", "identities", {n: identities_in_one_another(n, "_*_(Z:S, Y:S)") for n in (3, 5, 6)}),
    ("known parts", "identities", {n: known_parts(n) for n in (1, 2, 3)}),
    ("solved sums", "identities", {n: solved_sums(n) for n in (1, 2, 3, 4)}),
    ("solved towers", "identities", {n: solved_tower(n) for n in (2, 4, 6, 12, 20)}),
    ("a constant in a bag of variables", "identities", {n: f"{over('_&_', variables('X', n))} =? a" for n in (10, 20, 40)}),
    ("a term in a bag of variables", "identities", {n: f"{over('_&_', variables('X', n))} =? g(Y:S)" for n in (10, 20, 40)}),
    ("loose in two sums", "identities", {n: loose_sums(n) for n in (2, 4, 6)}),
    ("sums below sums", "identities", {n: sums_below_sums(n, "one") for n in (1, 2, 3)}),
    ("sums below sums, other rests", "identities", {n: sums_below_sums(n, "other") for n in (1, 2, 3)}),
    ("a tower beside a step", "identities", {n: f"c(Z:S, a) =? c({sums_in_turn(n)}, a)" for n in (2, 3, 4)}),
    ("a tower against a sum", "identities", {n: f"_&_(Z:S, Y:S) =? {sums_in_turn(n)}" for n in (2, 3)}),
    ("a tower of + against +", "identities", {n: f"_+_(Z:S, Y:S) =? {sums_in_turn(n, '_+_', '_&_')}" for n in (2, 3, 4)}),
    ("a tower of + against &", "identities", {n: f"_&_(Z:S, Y:S) =? {sums_in_turn(n, '_+_', '_&_')}" for n in (2, 3, 4)}),
    ("a tower of + against *", "identities", {n: f"_*_(Z:S, Y:S) =? {sums_in_turn(n, '_+_', '_&_')}" for n in (2, 3, 4, 5)}),
    ("towers of + against the like", "identities", {n: f"{sums_in_turn(n, '_+_', '_&_')} =? {sums_in_turn(n, '_+_', '_&_', 'UAB')}" for n in (1, 2, 3)}),
    ("a sum against a tower beside a variable", "identities", {n: f"_*_(Z:S, b) =? _*_({sums_in_turn(n, '_&_', '_*_')}, Y:S)" for n in (2, 3, 4)}),
    ("a sum against a thin tower beside a variable", "identities", {n: f"_*_(Z:S, b) =? _*_({thin_sums_in_turn(n, '_&_', '_*_')}, Y:S)" for n in (2, 3, 4)}),
    ("a thin tower against a sum with a term", "identities", {n: f"_*_(Z:S, g(Y:S)) =? {thin_sums_in_turn(n, '_*_', '_&_')}" for n in (2, 3, 4)}),
    ("a tower against a term", "identities", {n: f"g(Z:S) =? {sums_in_turn(n, '_&_', '_*_')}" for n in (2, 3, 4, 5)}),
    ("choices beside each other", "processes", {1: "_|_(_+_(_|_(P:P, Q:P), R:P), P:P) =? _|_(_+_(_|_(Q:P, R:P), P:P), R:P)"}),
    ("bags that are not empty", "fruit", {n: f"{over('_;_', variables('N', 3, 'Ne'))} =? {over('_;_', variables('F', n, 'Fruit'))}" for n in (3, 4, 5)}),
    ("places", "places", {
        1: f"{over('__', variables('M', 3, 'Marking'))} =? {over('__', variables('P', 3, 'Place') + ['ready'])}",
        2: f"{over('__', variables('P', 3, 'Place') + ['M:Marking'])} =? {over('__', variables('N', 2, 'Marking') + ['ready', 'ready'])}",
    }),
    ("element and bag", "soup", {n: against_constants(["E:Elt", "X:Bag"], n) for n in (4, 8, 12, 13, 16, 25)}),
    ("two bags", "soup", {n: against_constants(["X:Bag", "Y:Bag"], n) for n in (8, 12)}),
    ("other constants", "constants", {n: other_constants(n, "_+_") for n in (4, 6, 9, 12, 16)}),
    ("other constants, with an identity", "constants", {n: other_constants(n, "_&_") for n in (4, 6, 9, 12, 16)}),
    ("half of the constants", "constants", {n: half_of_them(n) for n in (8, 16)}),
    ("terms of two operators", "constants", {n: terms_of_two_operators(n) for n in (3, 5, 8, 12, 20, 30)}),
    ("twice and three times", "constants", {n: f"{beside('X', ['X:Sum'] + constants(1, n))} =? {over('_+_', ['Y:Sum'] * 3)}" for n in (3, 5, 8)}),
    ("element beside a sum", "constants", {n: f"{beside('X', ['E:Elt'])} =? {over('_+_', constants(1, n))}" for n in (8, 12, 24)}),
    ("element beside a sum, two rests", "constants", {n: f"{beside('X', ['E:Elt'])} =? {beside('Y', constants(1, n))}" for n in (8, 16)}),
    ("towers of three sums", "identities", {n: f"{towers_of_three(n)} =? {towers_of_three(n, 'U', 'A')}" for n in (1, 2)}),
    ("sums with the next one's variable", "identities", {n: f"{sums_with_the_next(n)} =? {sums_with_the_next(n, 'U', 'A')}" for n in (1, 2)}),
    ("two elements and bag", "soup", {n: against_constants(["E:Elt", "F:Elt", "X:Bag"], n) for n in (4, 8)}),
    ("free pairs", "plain", {n: f"{over('p', variables('X', n) + ['a'])} =? {over('p', variables('Y', n) + ['a'])}" for n in (25, 50, 99)}),
    ("free terms that double", "plain", {n: doubled(n) for n in (3, 5, 7)}),
]
