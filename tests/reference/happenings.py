"""What irig_explain has to list of an explanation, by the slow model of explanations: what happened at each step, what it costs, and by how
much the next best explanation is dearer.
"""
from reference import explanation

PLAIN = 48  # a step that costs as much is not plain
KINDS = {"damaged": explanation.NEXT, "missing": explanation.NEXT, "step": explanation.STEPS, "jump": explanation.JUMPS}


def claims_of(lines, rises):
    """The claims that the lines of a listing say, each with the kind of the step to it."""
    places = {rise: number for number, rise in enumerate(rises)}
    claims, kind = [], explanation.NEXT
    for line in lines:
        if line["what"] == "elements":
            first = places[line["begin"]]
            for more in range(line["count"]):
                claims.append(explanation.Claim(first + more, (line["element"] + more) % 100, explanation.NEXT if more else kind))
            assert claims[-1].rise == places[line["end"]]
        elif line["what"] != "noise":
            kind = KINDS[line["what"]]
    return claims


def missing_of(prices, one, other):
    if other.kind != explanation.NEXT:
        return 0
    return prices.counts(one.rise, other.rise)[(other.element - one.element) % 100] - 1


def place(prices, nominal, one, other):
    """What a step says of the intervals that it goes over."""
    if other.kind == explanation.JUMPS:
        return 10000
    labels = [(each.element - prices.rises[each.rise] // nominal) % 100 for each in (one, other)]
    return 100 * labels[0] + labels[1]


def next_best(tables, nominal, one, other):
    """What the cheapest explanation costs that says something else of the interval after a claim, of all steps over it."""
    count, at, asked = tables.count, one.rise, place(tables.prices, nominal, one, other)
    ends = [tables.lowest_before[rise] + explanation.SKIP * (count - rise - 1) for rise in range(at + 1)]
    begins = [tables.lowest_after[rise] + explanation.SKIP * rise for rise in range(at + 1, count)]
    best = min([explanation.SKIP * count, *ends, *begins])
    for rise in range(at, max(-1, at - explanation.WINDOW), -1):
        for late in range(at + 1, min(count, rise + explanation.WINDOW + 1)):
            if tables.lowest_before[rise] + tables.least(rise, late) + tables.lowest_after[late] < best:
                best = min([best, *others(tables, nominal, rise, late, asked)])
    return best


def others(tables, nominal, rise, late, asked):
    """What the cheapest explanations cost with each step between two rises that says something else."""
    for kind, gone, price in tables.ways(rise, late):
        spent = [cost + price[role] for cost, role in zip(tables.before[rise], tables.prices.roles)]
        if kind == explanation.JUMPS:
            if asked != 10000:
                yield min(spent) + tables.lowest_after[late]
            continue
        for element, cost in enumerate(spent):
            end = explanation.Claim(late, (element + gone) % 100, kind)
            if place(tables.prices, nominal, explanation.Claim(rise, element, kind), end) != asked:
                yield cost + tables.after[late][end.element]


def happenings(tables, nominal, claims):
    """What the listing of some claims has to say happened, as the model has it."""
    prices = tables.prices
    for one, other in zip(claims, claims[1:]):
        cost, missing = prices.price(*one[:2], *other), missing_of(prices, one, other)
        noise = other.rise - one.rise - 1
        if other.kind == explanation.NEXT and not missing and not noise and cost < PLAIN:
            continue
        what = other.kind if other.kind != explanation.NEXT else "missing" if missing else "damaged"
        yield {"begin": prices.rises[one.rise], "end": prices.rises[other.rise], "what": what, "element": one.element, "to": other.element,
               "missing": missing, "noise": noise, "cost": cost, "margin": next_best(tables, nominal, one, other) - tables.cost}


def noises(prices, claims):
    """The rises before the first claim and after the last one."""
    last = len(prices.rises) - 1
    ends = [(0, claims[0].rise, claims[0].rise), (claims[-1].rise, last, last - claims[-1].rise)] if claims else [(0, last, last + 1)]
    return [{"begin": prices.rises[one], "end": prices.rises[other], "what": "noise", "noise": count}
            for one, other, count in ends if count]


def plain(line):
    """A line for people."""
    what = line["what"]
    if what == "elements":
        said = "elements %d from %d" % (line["count"], line["element"])
    elif "cost" not in line:
        said = "noise %d" % line["noise"]
    else:
        said = {"missing": "missing %d" % line["missing"], "jump": "jump from %d to %d" % (line["element"], line["to"])}.get(what, what)
        said += ", noise %d" % line["noise"] if line["noise"] else ""
        said += "\tcost %d" % line["cost"] + ("\tmargin %d" % line["margin"] if "margin" in line else "")
    return "%d\t%d\t%s" % (line["begin"], line["end"], said)
