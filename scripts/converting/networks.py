"""Tests of toulbar2's wcsp format."""

import itertools
import re
import tracemalloc

from picturing.case import BARRED, MOST_CHANNELS, MOST_LINKS, MOST_PAIRS, STARTING
from planning import wcsp
from planning.unfit import Unfit

from . import listing
from .asking import converts, refuses, unfit_at_most
from .cases import Case, case_of, damaged, made, sizes, small_size, WEIGHTS


def read(text, barred=False):
    return wcsp.read("FILE", text.encode() if isinstance(text, str) else text, barred)


def constant(said):
    return int(re.match(r"total = (-?[0-9]+) - cost", said).group(1))


def there_and_back(count, random):
    """Back again each scope is lowered by its greatest weight, or by less where that would not fit; the same file comes of it."""
    for size in sizes(random):
        for kind in WEIGHTS:
            case = made(random, size, kind)
            name = f"to-wcsp, from-wcsp, {size} {kind}"
            text, said = wcsp.write("some.case", case.text())
            count.test(f"{name}: C", constant(said) == case.ceiling())
            back, said = read(text)
            lowered, by = case.lowered()
            count.test(name, back == lowered.text() and said == f"total = {case.ceiling() - by} - cost")
            count.test(f"{name}, to-wcsp", wcsp.write("some.case", back)[0] == text)
            count.test(f"{name}, nothing to be barred", read(text, True) == (back, said))
            barred_there_and_back(count, f"{name}, barred", case.barring(random, 30))


def barred_there_and_back(count, name, case):
    """What is barred is forbidden, and barred again; the rest is lowered as above."""
    text, said = wcsp.write("some.case", case.text())
    count.test(f"{name}: C", constant(said) == case.ceiling())
    back, said = read(text, True)
    lowered, by = case.lowered()
    count.test(name, back == lowered.text() and constant(said) == case.ceiling() - by)
    count.test(f"{name}, to-wcsp", wcsp.write("some.case", back)[0] == text)


def every_plan(count, random):
    """The cost of every plan is C less its total, and below the upper bound; that of an unlawful one is not."""
    for number in range(80):
        case = made(random, small_size(random, 5), random.choice(list(WEIGHTS))).barring(random, 30 * (number % 2))
        text, said = wcsp.write("x", case.text())
        known, all_of_it = listing.problem(text), constant(said)
        totals = {plan: case.total(plan) for plan in case.plans()}
        right = all(listing.cost(known, plan) == (None if total is None else all_of_it - total) for plan, total in totals.items())
        lawful = [total for total in totals.values() if total is not None]
        count.test(f"cost = C - total {number}", right and (not lawful or known.top > all_of_it - min(lawful)))
        count.test(f"what is barred is told {number}", ("barred" in said) == (BARRED in itertools.chain(*case.links, *(pair[2] for pair in case.pairs))))


def names(count):
    for given, due in (
        ("a/b/triangle.case", "triangle"),
        ("valley", "valley"),
        ("my case (2).case", "mycase2"),
        ("a.b.case", "ab"),
        ("A_1-b.case", "A_1-b"),
        ("-", "case"),
        ("h\u00f6he.case", "hhe"),
        ("\u00f6.case", "case"),
    ):
        count.test(f"the name of {given!r}", wcsp.write(given, Case(1, [[5]], []).text())[0] == f"{due} 1 1 1 1\n1\n1 0 0 0\n".encode())


def keeps(count, name, text):
    """Of a file's plans those without a forbidden combination keep their cost, all others are below them."""
    known = listing.problem(text.encode() if isinstance(text, str) else text)
    try:
        made_of, said = read(text)
    except Unfit as unfit:
        count.test(name, False, str(unfit))
        return
    case, constant_cost = case_of(made_of), constant(said)
    lawful = {plan: listing.cost(known, plan) for plan in listing.plans(known)}
    lawful = {plan: cost for plan, cost in lawful.items() if cost is not None}
    count.test(f"{name}: totals", all(case.total(plan) == constant_cost - cost for plan, cost in lawful.items()))
    others = [case.total(plan) for plan in case.plans() if plan not in lawful]
    count.test(f"{name}: forbidden plans", not others or not lawful or max(others) < min(map(case.total, lawful)))
    border = re.search(r"below (-?[0-9]+), every other", said)
    count.test(f"{name}: what is said of them", bool(border) == bool(others))
    if border:
        least = int(border.group(1))
        count.test(f"{name}: the border", all(total < least for total in others) and all(case.total(plan) >= least for plan in lawful))


def bars(count, name, text):
    """With --barred plans without a forbidden combination keep their cost, and all others, and no more, are unlawful."""
    known = listing.problem(text.encode() if isinstance(text, str) else text)
    made_of, said = read(text, True)
    case, constant_cost = case_of(made_of), constant(said)
    costs = {plan: listing.cost(known, plan) for plan in listing.plans(known)}
    right = all(case.total(plan) == (None if costs.get(plan) is None else constant_cost - costs[plan]) for plan in case.plans())
    count.test(f"{name}: barred", right)
    count.test(f"{name}: what is said of the barred", ("unlawful" in said) == (BARRED in itertools.chain(*case.links, *(pair[2] for pair in case.pairs))))


BY_HAND = {
    "a forbidden value": "p 2 3 2 50\n3 3\n1 0 0 1\n2 50\n2 0 1 1 2\n0 0 0\n1 1 9\n",
    "a forbidden default": "p 1 3 1 5\n3\n1 0 5 1\n1 4\n",
    "a forbidden pair": "p 2 2 1 50\n2 2\n2 0 1 0 1\n0 0 70\n",
    "forbidden by two functions": "p 2 2 2 50\n2 2\n2 0 1 0 1\n0 0 30\n2 1 0 0 1\n0 0 20\n",
    "unequal domains": "p 3 4 3 50\n2 4 1\n1 0 0 1\n1 3\n2 0 1 7 3\n0 3 0\n1 0 2\n0 0 1\n2 1 2 4 1\n3 0 0\n",
    "a larger domain in the head": "p 2 7 1 50\n2 3\n2 0 1 7 1\n1 2 0\n",
    "several functions on one scope": "p 2 2 4 99\n2 2\n2 0 1 0 1\n0 0 4\n2 0 1 3 1\n1 1 0\n1 1 2 0\n1 1 0 1\n0 5\n",
    "a pair turned round": "p 2 3 2 99\n2 3\n2 1 0 1 2\n2 0 8\n1 1 6\n2 0 1 0 1\n1 2 5\n",
    "a constant": "p 1 2 3 99\n2\n0 5 0\n1 0 0 1\n1 3\n0 7 0\n",
    "a constant as a tuple": "p 1 2 2 99\n2\n0 5 1 7\n1 0 0 1\n1 3\n",
    "costs far from 0": "p 2 2 2 9000000\n2 2\n1 0 1500000 1\n0 3400000\n2 0 1 0 4\n0 0 1600000\n0 1 1500000\n1 0 1400000\n1 1 1300000\n",
    "costs below the default": "p 2 2 2 50\n2 2\n2 0 1 9 2\n0 0 0\n1 1 20\n2 0 1 30 1\n0 1 0\n",
    "shared functions": "p 4 2 5 50\n2 2 2 2\n-2 0 1 1 1\n0 1 5\n-2 2 0 1 -1\n-2 1 2 0 1\n1 1 7\n2 1 3 0 -2\n2 3 2 1 -1\n",
    "a shared function of one variable": "p 2 2 2 50\n2 2\n-1 0 0 1 1 3\n1 1 0 -1\n",
    "no functions": "p 2 2 0 1\n2 2\n",
    "empty functions": "p 2 2 3 9\n2 2\n1 0 0 0\n1 1 0 0\n2 0 1 0 0\n",
    "one line": "p 2 2 1 9 2 2 2 0 1 0 1 0 0 3",
    "a word a line": "p 2 2 1 9 2 2 2 0 1 0 1 0 0 3".replace(" ", "\r\n"),
    "zeros and signs": "p +2 02 1 09 2 2 +2 0 1 00 1 0 0 03",
    "nothing lawful": "p 2 2 1 9\n1 1\n2 0 1 0 1 0 0 8\n",
}


def by_hand(count, random):
    for name, text in BY_HAND.items():
        keeps(count, name, text)
        bars(count, name, text)
    for _ in range(150):
        text = random_problem(random)
        name = f"a problem made at random {text!r}"
        known = listing.problem(text.encode())
        if any(listing.cost(known, plan) is not None for plan in listing.plans(known)):
            keeps(count, name, text)
            bars(count, name, text)
        else:
            unfit_at_most(count, name, lambda: read(text)[0])
            unfit_at_most(count, f"{name}, barred", lambda: read(text, True)[0])


def random_problem(random):
    """Costs with forbidden ones among them, unequal domains, scopes met again and turned, constants, shared functions."""
    n = random.randint(1, 4)
    domains = [random.randint(1, 3) for _ in range(n)]
    functions, shared = [], []
    for _ in range(random.randint(0, 7)):
        scope = random.sample(range(n), random.randint(0, min(n, 2)))
        form = tuple(domains[i] for i in scope)
        again = [(at, default) for at, (known, default) in enumerate(shared) if known == form]
        if again and random.randrange(2):
            at, default = random.choice(again)
            functions.append([len(scope), *scope, default, -at - 1])
            continue
        negative = bool(scope) and random.randrange(3) == 0
        default = random.randint(0, 9)
        own = [combination for combination in listing.plans(listing.Problem(form, 0, [])) if random.randrange(2)]
        functions.append([-len(scope) if negative else len(scope), *scope, default, len(own)])
        for combination in own:
            functions[-1] += [*combination, random.choice([0, 1, 5, 20, 100, 120 if any(combination) else 7])]
        shared += [(form, default)] if negative else []
    head = ["random", n, max(domains), len(functions), 100, *domains]
    return " ".join(str(word) for part in [head] + functions for word in part)


def grid(n, d, m, cost=0, again=False):
    """A problem of any size, the limits not asked."""
    joined = [(i, j) for j in range(n) for i in range(j)][:m]
    joined += joined if again else []
    functions = [f"1 0 0 1 0 {cost}"] + [f"2 {i} {j} 0 1 0 0 {cost}" for i, j in joined]
    return f"p {n} {d} {len(functions)} 5000000\n" + f"{d} " * n + "\n" + "\n".join(functions) + "\n"


def borders(count):
    for n, d, m in ((MOST_LINKS, 1, 0), (1, MOST_CHANNELS, 0), (MOST_LINKS, 1, MOST_PAIRS)):
        converts(count, f"wcsp, {n} variables, {d} values, {m} pairs", lambda: read(grid(n, d, m))[0])
    converts(count, "wcsp, every pair twice", lambda: read(grid(MOST_LINKS, 1, MOST_PAIRS, again=True))[0])
    refuses(count, "a variable too many", lambda: read(grid(MOST_LINKS + 1, 1, 0)), "FILE: line 1", "number of variables", f"at most {MOST_LINKS}")
    refuses(count, "a value too many", lambda: read(grid(1, MOST_CHANNELS + 1, 0)), "FILE: line 2", "domain's size", f"at most {MOST_CHANNELS}")
    many = grid(MOST_LINKS, 1, MOST_PAIRS + 1)
    refuses(count, "a pair of variables too many", lambda: read(many), f"FILE: line {MOST_PAIRS + 4}", f"more than {MOST_PAIRS} pairs")
    keeps(count, f"cost {STARTING}", grid(2, 2, 1, STARTING))
    keeps(count, f"cost {2 * STARTING}", grid(2, 2, 1, 2 * STARTING))
    far = 2 * STARTING + 1
    refuses(count, f"cost {far} of a value", lambda: read(grid(2, 2, 0, far)), "FILE: variable 0:", str(far), str(STARTING))
    pair = grid(2, 2, 1).replace("1 0 0 0\n", f"1 0 0 {far}\n")
    refuses(count, f"cost {far} of a pair", lambda: read(pair), "FILE: variables 0 and 1:", str(far))
    refuses(count, f"cost {far + 1} by two functions", lambda: read(grid(2, 2, 1, STARTING + 1, True)), str(far + 1))


def many_shared(count):
    """Shared functions take as much memory as they have tuples, not combinations."""
    functions = 3000
    text = f"p 2 {MOST_CHANNELS} {functions} 9\n{MOST_CHANNELS} {MOST_CHANNELS}\n" + "-2 0 1 0 0\n" * functions
    tracemalloc.start()
    converts(count, "many shared functions", lambda: read(text)[0])
    count.test("memory of many shared functions", tracemalloc.get_traced_memory()[1] < 1000 * functions)
    tracemalloc.stop()


def barred_borders(count):
    """A forbidden value or a missing one may just not reach the plans without it."""
    forbidden = "p 2 2 2 2000000\n2 2\n1 0 0 1\n1 2000000\n1 1 0 1\n1 {}\n"
    missing = "p 2 2 1 2000000\n1 2\n1 1 0 1\n1 {}\n"
    pair = "p 2 2 2 2000000\n2 2\n1 0 0 1\n1 {}\n2 0 1 0 1\n1 1 2000000\n"
    for name, text, place in (("value", forbidden, "variable 0"), ("missing value", missing, "variable 0"), ("pair", pair, "variables 0 and 1")):
        keeps(count, f"a forbidden {name} at the border", text.format(STARTING - 1))
        refuses(count, f"a forbidden {name} too near", lambda: read(text.format(STARTING)), "FILE", place, str(-STARTING), "--barred")
        bars(count, f"a forbidden {name} that is too near as a weight", text.format(STARTING))
    beside = forbidden.replace("1 0 0 1", "1 0 10 1")
    keeps(count, "a forbidden value beside a cost", beside.format(STARTING - 11))
    refuses(count, "a forbidden value beside a cost, too near", lambda: read(beside.format(STARTING - 10)), "FILE", "variable 0", str(-STARTING))
    alone = "p 2 2 1 50\n2 2\n2 0 1 60 {}\n"
    keeps(count, "one combination left", alone.format("1 0 1 3"))
    for barred in (False, True):
        none = lambda: read(alone.format("1 0 1 50"), barred)
        refuses(count, "no combination left", none, "variables 0 and 1", "upper bound 50", "no plan is allowed")
        refuses(count, "no value left", lambda: read("p 1 2 1 50\n2\n1 0 50 0", barred), "variable 0", "no plan is allowed")
    refuses(count, "a constant at the upper bound", lambda: read("p 1 2 1 50\n2\n0 50 0"), "constant", "no plan is allowed")
    keeps(count, "a constant below the upper bound", "p 1 2 1 50\n2\n0 49 0")
    refuses(count, "an upper bound of 0", lambda: read("p 1 2 0 0\n2\n"), "upper bound 0")


REFUSED = [
    ("", ["line 1", "stops where the problem's name is due"]),
    ("p", ["line 1", "stops where the number of variables is due"]),
    ("p 0 2 0 9", ["line 1", "variables is 0", "at least 1"]),
    ("p 2 2 -1 9\n2 2\n", ["line 1", "functions is -1", "at least 0"]),
    ("# a comment\np 1 2 0 9\n2", ["line 1", "'a' stands where the number of variables is due"]),
    ("p 2 2 0 9\n2\n", ["line 3", "stops where a domain's size is due"]),
    ("p 2 2 0 9\n2 0\n", ["line 2", "size is 0", "at least 1"]),
    ("p 2 2 0 9\n2 -2\n", ["line 2", "size is -2"]),
    ("p 2 2 0 9\n2 3\n", ["line 2", "size is 3", "head says 2"]),
    ("p 1 2 1 9\n2\n", ["line 3", "stops where a function's number of variables is due"]),
    ("p 1 2 1 9\n2\n1 0 0 2\n0 1\n", ["line 5", "stops where a value is due"]),
    ("p 1 2 1 9\n2\n1 0 0 1\n0", ["line 4", "stops where a cost is due"]),
    ("p 1 2 1 9\n2\n1 0 0 1\n0 1\n\n 1", ["line 6", "goes on", "says 1"]),
    ("p 3 2 1 9\n2 2 2\n3 0 1 2 0 0\n", ["line 3", "over 3 variables"]),
    ("p 3 2 1 9\n2 2 2\n-3 0 1 2 0 0\n", ["line 3", "over 3 variables"]),
    ("p 4 2 1 9\n2 2 2 2\n4 0 1 2 3 -1 salldiff var 1\n", ["line 3", "over 4 variables"]),
    ("p 2 2 1 9\n2 2\n2 0 1 -1 salldiff var 1\n", ["line 3", "default cost -1", "rule"]),
    ("p 2 2 1 9\n2 2\n2 0 1 -1 < 0 0\n", ["line 3", "default cost -1", "rule"]),
    ("p 1 2 1 9\n2\n1 0 -2 0\n", ["line 3", "default cost -2", "rule"]),
    ("p 1 2 1 9\n2\n1 0 0 2\n0 0\n1 -3\n", ["line 5", "a cost is -3", "below 0"]),
    ("p 2 2 1 9\n2 2\n-2 0 1 9 1\n1 1 -1\n", ["line 4", "a cost is -1", "below 0"]),
    ("p 1 2 1 9\n2\n0 -5 0\n", ["line 3", "the constant is -5", "below 0"]),
    ("p 1 2 1 9\n2\n0 0 1 -5\n", ["line 3", "a cost is -5", "below 0"]),
    ("p 2 2 1 9\n2 2\n2 0 2 0 0\n", ["line 3", "a variable is 2"]),
    ("p 2 2 1 9\n2 2\n1 -1 0 0\n", ["line 3", "a variable is -1"]),
    ("p 2 2 1 9\n2 2\n2 1 1 0 0\n", ["line 3", "variable 1 with itself"]),
    ("p 2 2 1 9\n2 1\n2 0 1 0 1\n0 1 3\n", ["line 4", "a value is 1"]),
    ("p 1 2 1 9\n2\n1 0 0 2\n0 1\n0 1\n", ["line 5", "had before"]),
    ("p 1 2 1 9\n2\n1 0 0 1\n0 1.5\n", ["line 4", "'1.5' stands where a cost is due"]),
    ("p 1 2 1 9\n2\n1 0 0 1\n0 3a\n", ["line 4", "'3a' stands where a cost is due"]),
    ("p 1 2 1 1e9\n2\n1 0 0 0\n", ["line 1", "'1e9' stands where the upper bound is due"]),
    ("p 1 2 1 " + "9" * 5000 + "\n2\n1 0 0 0\n", ["line 1", "where the upper bound is due", "19 digits"]),
    ("p 2 2 2 9\n2 2\n-1 0 0 0\n1 1 0 -2\n", ["line 4", "shared function 2 is not there"]),
    ("p 2 2 2 9\n2 2\n-1 0 0 0\n1 1 3 -1\n", ["line 4", "default cost", "shared function 1"]),
    ("p 2 2 2 9\n2 1\n-1 0 0 0\n1 1 0 -1\n", ["line 4", "domains", "shared function 1"]),
]


def refusals(count):
    for text, words in REFUSED:
        refuses(count, f"refused: {words}", lambda: read(text), "FILE: ", *words)
    refuses(count, "UTF-16", lambda: read(BY_HAND["a constant"].encode("utf-16")), "FILE: line 1")


def damages(count, random):
    """Broken files are refused or give a valid case."""
    texts = [text.encode() for text in BY_HAND.values()]
    for _ in range(600):
        text = random.choice(texts + [wcsp.write("x", made(random, small_size(random, 4), "small").text())[0]])
        broken = damaged(random, text)
        unfit_at_most(count, f"a damaged wcsp file {broken!r}", lambda: read(broken)[0])
        unfit_at_most(count, f"a damaged wcsp file {broken!r}, barred", lambda: read(broken, True)[0])
    for _ in range(100):
        noise = random.randbytes(random.randrange(200))
        unfit_at_most(count, f"noise {noise}", lambda: read(noise)[0])


def tests(count, random):
    there_and_back(count, random)
    every_plan(count, random)
    names(count)
    by_hand(count, random)
    borders(count)
    many_shared(count)
    barred_borders(count)
    refusals(count)
    damages(count, random)
