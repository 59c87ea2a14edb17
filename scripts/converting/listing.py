"""A reader of wcsp text for the tests alone, and the costs of all plans by it."""

import itertools
from collections import Counter, namedtuple

# Functions are pairs: the variables, and the cost of each combination.
Problem = namedtuple("Problem", "sizes top functions")


def problem(data):
    words = data.decode("ascii").split()
    n, _, count, top = map(int, words[1:5])
    sizes = list(map(int, words[5 : 5 + n]))
    left = iter(words[5 + n :])
    functions, shared = [], []
    for _ in range(count):
        arity = int(next(left))
        scope = [int(next(left)) for _ in range(abs(arity))]
        default, tuples = int(next(left)), int(next(left))
        if tuples < 0:
            functions.append((scope, shared[-tuples - 1]))
            continue
        costs = dict.fromkeys(itertools.product(*(range(sizes[i]) for i in scope)), default)
        for _ in range(tuples):
            combination = tuple(int(next(left)) for _ in scope)
            costs[combination] = int(next(left))
        functions.append((scope, costs))
        if arity < 0:
            shared.append(costs)
    assert next(left, None) is None
    return Problem(sizes, top, functions)


def plans(known):
    return itertools.product(*map(range, known.sizes))


def cost(known, plan):
    """The cost of a plan, None if it uses a combination at or above the upper bound."""
    sums = Counter()
    for scope, costs in known.functions:
        one = costs[tuple(plan[i] for i in scope)]
        if one >= known.top:
            return None
        sums[tuple(sorted(scope))] += one
    return None if any(one >= known.top for one in sums.values()) else sum(sums.values())
