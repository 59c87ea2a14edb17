"""toulbar2's wcsp format: costs, of which the least sum is wanted, against weights, of which the greatest is. A cost at or above the file's upper
bound forbids its combination, as a value that a variable does not have is forbidden: this is just what a barred combination is."""

import itertools
import math
import os
import re

from picturing.case import BARRED, MOST_CHANNELS, MOST_LINKS, MOST_PAIRS, STARTING, read_case, write_case

from .unfit import Unfit, shown

# What a forbidden combination weighs where it is not barred: the least starting weight.
LEAST = -STARTING
WORD = re.compile(rb"\S+")
NUMBER = re.compile(rb"[+-]?[0-9]{1,19}")


class Words:
    """The words of a file between its white space; line ends mean no more than spaces."""

    def __init__(self, name, data):
        self.name, self.data = name, data
        self.left = WORD.finditer(data)
        self.at = 0

    def refuse(self, why):
        raise Unfit(f"{self.name}: line {self.data.count(10, 0, self.at) + 1}: {why}")

    def more(self):
        """The next word, None at the end."""
        found = next(self.left, None)
        self.at = found.start() if found else len(self.data)
        return found and found.group()

    def word(self, what):
        word = self.more()
        if word is None:
            self.refuse(f"the file stops where {what} is due")
        return word

    def number(self, what):
        word = self.word(what)
        if not NUMBER.fullmatch(word):
            self.refuse(f"'{shown(word.decode('utf-8', 'replace'))}' stands where {what} is due, a whole number of at most 19 digits")
        return int(word)

    def within(self, what, least, most):
        number = self.number(what)
        if not least <= number <= most:
            self.refuse(f"{what} is {number}; it must be at least {least}" + (f" and at most {most}" if most < math.inf else ""))
        return number


class Network:
    """Variables and the costs of each scope: of no variable (the constant), of one, of two in ascending order. A scope's costs are the sum of its
    functions' defaults and what each combination costs more or less."""

    def __init__(self, sizes):
        self.sizes = sizes
        self.defaults, self.scopes = {}, {}
        self.shared = []
        for scope in [(), *((i,) for i in range(len(sizes)))]:
            self.add(scope, 0, {})

    def domains(self, scope):
        return [self.sizes[i] for i in scope]

    def pairs(self):
        return [scope for scope in self.scopes if len(scope) == 2]

    def add(self, scope, default, costs):
        """A function by its default cost and its tuples' own."""
        if list(scope) != sorted(scope):
            scope = scope[::-1]
            costs = {combination[::-1]: cost for combination, cost in costs.items()}
        if scope not in self.scopes:
            self.defaults[scope] = 0
            self.scopes[scope] = dict.fromkeys(itertools.product(*map(range, self.domains(scope))), 0)
        self.defaults[scope] += default
        for combination, cost in costs.items():
            self.scopes[scope][combination] += cost - default

    def costs(self, scope):
        return {combination: self.defaults[scope] + more for combination, more in self.scopes[scope].items()}


def read(name, data, barred=False):
    """The case of a wcsp file, and how totals and costs belong together; what is forbidden is barred, or has the least weight."""
    words = Words(name, data)
    words.word("the problem's name")
    n = words.within("the number of variables", 1, MOST_LINKS)
    largest = words.number("the largest domain's size")
    functions = words.within("the number of functions", 0, math.inf)
    top = words.number("the upper bound")
    network = Network([domain(words, largest) for _ in range(n)])
    for _ in range(functions):
        read_function(words, network)
    if words.more() is not None:
        words.refuse(f"the file goes on after its last function; its head says {functions}")
    return converted(name, network, top, barred)


def domain(words, largest):
    size = words.within("a domain's size", 1, MOST_CHANNELS)
    if size > largest:
        words.refuse(f"a domain's size is {size}; the file's head says {largest} at most")
    return size


def read_function(words, network):
    arity = words.number("a function's number of variables")
    if abs(arity) > 2:
        words.refuse(f"a function over {abs(arity)} variables; a case has functions of one link and of two")
    last = len(network.sizes) - 1
    scope = tuple(words.within("a variable", 0, last) for _ in range(abs(arity)))
    if len(set(scope)) < len(scope):
        words.refuse(f"a function of variable {scope[0]} with itself")
    default = words.number("a default cost")
    if scope and default < 0:
        words.refuse(f"the default cost {default} stands for a function given by a rule (global or in intension); only lists of costs are read")
    at_least_0(words, "the constant", default)
    count = words.number("the number of tuples")
    if count < 0:
        costs = reused(words, network, scope, default, -count)
    else:
        costs = listed(words, network, scope, count)
        network.shared += [(default, network.domains(scope), costs)] if arity < 0 else []
    if len(scope) == 2 and tuple(sorted(scope)) not in network.scopes and len(network.pairs()) == MOST_PAIRS:
        words.refuse(f"more than {MOST_PAIRS} pairs of variables")
    network.add(scope, default, costs)


def at_least_0(words, what, cost):
    if cost < 0:
        words.refuse(f"{what} is {cost}; programs read costs below 0 differently, so none is taken")
    return cost


def listed(words, network, scope, count):
    """The costs of a function's own tuples, which follow."""
    costs = {}
    for _ in range(count):
        combination = tuple(words.within("a value", 0, network.sizes[i] - 1) for i in scope)
        if combination in costs:
            words.refuse("a tuple that the function has had before")
        costs[combination] = at_least_0(words, "a cost", words.number("a cost"))
    return costs


def reused(words, network, scope, default, number):
    """The costs of a shared function, one that was given with a number of variables below 0; they count from 1."""
    if number > len(network.shared):
        words.refuse(f"shared function {number} is not there")
    shared_default, domains, costs = network.shared[number - 1]
    if default != shared_default or domains != network.domains(scope):
        words.refuse(f"the default cost or the domains are not those of shared function {number}")
    return costs


def converted(name, network, top, barred):
    values = max(network.sizes)
    constant, weights = 0, {}
    for scope in network.scopes:
        allowed = {combination: cost for combination, cost in network.costs(scope).items() if cost < top}
        lifted = lift(name, scope, allowed, top)
        constant += lifted
        weights[scope] = {combination: lifted - cost for combination, cost in allowed.items()}
    said = forbidden_words(name, network, weights, values, barred)
    tables = {
        scope: [known.get(combination, BARRED if barred else LEAST) for combination in itertools.product(range(values), repeat=len(scope))]
        for scope, known in weights.items()
    }
    links = [tables[(i,)] for i in range(len(network.sizes))]
    case = write_case(values, links, [(*pair, tables[pair]) for pair in network.pairs()])
    return case, "\n".join([f"total = {constant} - cost", *said])


def forbidden_words(name, network, weights, values, barred):
    """What is said of plans that use something forbidden, if there are such. Refused where they cannot be told from others."""
    scopes = [scope for scope in weights if scope]
    forbidding = [scope for scope in scopes if len(weights[scope]) < full(network, scope, values)]
    if not forbidding:
        return []
    if barred:
        return ["what is forbidden is barred: a plan that uses it is unlawful, and has no total"]
    least = lawful_least(name, weights, scopes, forbidding)
    return [f"every plan that uses a forbidden combination has a total below {least}, every other plan {least} or more"]


def lift(name, scope, allowed, top):
    """What a scope's weights are above minus its costs, so that they fit: nothing if they do so. The constant goes whole."""
    if not allowed:
        what = f"every cost of {variables(scope)}" if scope else "the constant"
        raise Unfit(f"{name}: {what} is at or above the upper bound {top}: no plan is allowed")
    least, most = min(allowed.values()), max(allowed.values())
    if not scope:
        return most
    if most - least > 2 * STARTING:
        raise Unfit(f"{name}: {variables(scope)}: the costs {least} and {most} do not fit; weights lie within {STARTING} of 0")
    return max(0, most - STARTING)


def variables(scope):
    return ("variable " if len(scope) == 1 else "variables ") + " and ".join(map(str, scope))


def full(network, scope, values):
    """How many combinations a scope has where none is forbidden; a pair is not asked for values that a link of it does not have."""
    return values if len(scope) == 1 else len(network.scopes[scope])


def lawful_least(name, weights, scopes, forbidding):
    """A total that no plan without anything forbidden is below, and all other plans are. Refused if there is none."""
    highest = {scope: max(weights[scope].values()) for scope in scopes}
    least = sum(min(weights[scope].values()) for scope in scopes)
    for scope in forbidding:
        best = sum(highest.values()) - highest[scope] + LEAST
        if best >= least:
            raise Unfit(
                f"{name}: a forbidden or missing combination of {variables(scope)} would weigh {LEAST}, and a plan that uses it could have "
                f"a total of {best}; plans that use none may have no more than {least} (with --barred it has no weight)"
            )
    return least


def write(name, data):
    """The wcsp file of a case, and how totals and costs belong together."""
    return written(name, read_case(data))


def written(name, case):
    """The same of a case that was read, or of its working weights in place of the starting ones. The upper bound is above the cost of every plan
    that uses nothing barred; what is barred costs as much, which forbids it."""
    weights = [case.weights[slice(*case.span(scope))] for scope in range(case.scopes)]
    ceiling = sum(map(max, weights))
    top = ceiling - sum(min(weight for weight in known if weight != BARRED) for known in weights) + 1
    text = [f"{problem_name(name)} {case.n} {case.d} {case.scopes} {top}", " ".join([str(case.d)] * case.n)]
    places = [(i,) for i in range(case.n)] + case.pairs
    for place, known in zip(places, weights):
        text += function_text(place, known, case.d, top)
    said = f"total = {ceiling} - cost" + (f"\nwhat is barred costs {top}, the upper bound: it is forbidden" if case.bars else "")
    return ("\n".join(text) + "\n").encode("ascii"), said


def function_text(place, weights, values, top):
    greatest = max(weights)
    combinations = zip(itertools.product(range(values), repeat=len(place)), weights)
    tuples = [(*combination, top if weight == BARRED else greatest - weight) for combination, weight in combinations if weight != greatest]
    return [" ".join(map(str, row)) for row in [(len(place), *place, 0, len(tuples))] + tuples]


def problem_name(name):
    stem = os.path.splitext(os.path.basename(name))[0]
    kept = re.sub(r"[^A-Za-z0-9_-]", "", stem)
    return kept if re.search(r"[A-Za-z0-9]", kept) else "case"
