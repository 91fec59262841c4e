"""What the cheapest explanation of some rises costs, and the bound below which all explanations give an interval a place. Run, it prints
the rows of `crates/irig_part_tests/src/explanations.rt`.

It goes forward over all claims, and has no table of what comes after a claim. The bound is the cost of the cheapest explanation if each
step over the interval is forbidden that gives it the place.
"""
RISES = 10
WINDOW = 2
SKIP = 8
ELEMENTS = 100
# the element that each rise looks like: rise 3 is noise, and between rises 6 and 7 the element number jumps
LOOKS = (3, 4, 5, 77, 6, 7, 8, 40, 41, 42)
# intervals between rises, and places
ASKED = ((0, 3), (1, 3), (2, 2), (3, 2), (4, 2), (5, 2), (6, 33), (7, 33), (8, 33), (0, 1), (2, 3), (6, 2))
UNLIKE = 20
NOT_NEXT = 50
STEP = 12
STEP_NOT_NEXT = 60
JUMP = 16


def price(rise, element, later, other):
    """What the cheapest step between two claims costs, of the three kinds."""
    between = SKIP * (later - rise - 1)
    look = 0 if LOOKS[later] == other else UNLIKE
    is_next = (element + 1) % ELEMENTS == other
    return between + look + min(0 if is_next else NOT_NEXT, STEP if is_next else STEP_NOT_NEXT, JUMP)


def place(later, other):
    """The place that a step gives: how far the element is ahead of the number of the rise."""
    return (other + ELEMENTS - later % ELEMENTS) % ELEMENTS


def cheapest(forbidden=None):
    """What the cheapest explanation costs that has no step over an interval with a place: a pair of both, or None."""
    costs = [[SKIP * rise] * ELEMENTS for rise in range(RISES)]
    for later in range(RISES):
        for other in range(ELEMENTS):
            for rise in range(max(0, later - WINDOW), later):
                if forbidden and rise <= forbidden[0] < later and place(later, other) == forbidden[1]:
                    continue
                ways = (costs[rise][element] + price(rise, element, later, other) for element in range(ELEMENTS))
                costs[later][other] = min(costs[later][other], min(ways))
    ends = (costs[rise][element] + SKIP * (RISES - rise - 1) for rise in range(RISES) for element in range(ELEMENTS))
    return min(SKIP * RISES, min(ends))


def main():
    print("the cheapest costs", cheapest())
    for interval, asked in ASKED:
        print(f"    ({interval}, {asked}, {cheapest((interval, asked))}),")


if __name__ == "__main__":
    main()
