"""A plan that uses active combinations only: taken from a family, where the pairs form no loop."""

from .families import lowest


def meeting_plan(case, one):
    """A channel for each link, from what a link keeps.

    Link by link, one that has no channel yet begins with the lowest of its set, and all that are connected with it follow over the pairs, each
    with the lowest partner. Without a loop each of them is come to over one pair only.
    """
    plan = [None] * case.n
    for link in range(case.n):
        if plan[link] is None:
            plan[link] = lowest(one.family[link])
            follow(case, one.partners, plan, link)
    return plan


def follow(case, partners, plan, first):
    """Gives a channel to all links that are connected with one that has its own."""
    reached = [first]
    for link in reached:
        for pair, ends in enumerate(case.pairs):
            if link in ends:
                end = ends.index(link)
                other = ends[1 - end]
                if plan[other] is None:
                    plan[other] = partners[(2 * pair + end) * case.d + plan[link]]
                    reached.append(other)
