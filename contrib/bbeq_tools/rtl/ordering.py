"""An order of inputs and registers that keeps decision diagrams small: as a walk back from what is
compared meets them."""

MOST_STEPS = 200_000  # For what is reckoned of one order.
# A bound that is small is left, and so is one whose logarithm no walk makes less by this.
ENOUGH, LEAST_GAIN = 100_000, 1.1


def walk(roots, sources):
    """The bits from which the roots are made and these themselves, operands first, as a walk depth
    first meets them."""
    order, seen, stack = [], set(), [(bit, False) for bit in reversed(roots)]
    while stack:
        bit, done = stack.pop()
        if done:
            order.append(bit)
        elif bit not in seen:
            seen.add(bit)
            stack.append((bit, True))
            stack += [(read, False) for read in reversed(sources(bit))]
    return order


def depths(order, sources):
    """For each bit of a walk the length of the longest way from what has no source."""
    found = {}
    for bit in order:
        found[bit] = 1 + max((found.get(read, 0) for read in sources(bit)), default=-1)
    return found


def width(cone, sources, places):
    """A bound of the nodes for one root: the variables are read one after another, each gate is
    reckoned as soon as it can be, and two to the number of values that are still wanted is summed
    over all places (Berman, Circuit width, register allocation, and ordered binary decision
    diagrams, 1991)."""
    known, last = {}, {}
    for bit in cone:
        reads = sources(bit)
        known[bit] = max((known[read] for read in reads), default=places.get(bit, -1))
        for read in reads:
            last[read] = max(last.get(read, -1), known[bit])
    changes = {}
    for bit, until in last.items():
        if known[bit] >= 0 and until > known[bit]:
            changes[known[bit]] = changes.get(known[bit], 0) + 1
            changes[until] = changes.get(until, 0) - 1
    bound, wanted, before = 0.0, 0, 0
    for place in sorted(changes):
        bound += (place - before) * 2.0 ** min(wanted, 800)
        wanted, before = wanted + changes[place], place
    return bound


def bound(order, cones, sources):
    places = {bit: place for place, bit in enumerate(order)}
    return sum(width(cone, sources, places) for cone in cones)


def some_cones(roots, sources):
    """What each of the roots is made from; of many roots those that come first."""
    found, steps = [], 0
    for root in roots:
        found.append(walk([root], sources))
        steps += len(found[-1])
        if steps > MOST_STEPS:
            break
    return found


def starts(roots, sources):
    """The orders of roots from which it is walked. The net with the longest way comes first, and in
    it the bit with the shortest, which of an adder is the lowest, or with the longest; or the
    shortest way comes first throughout."""
    depth = depths(walk(sum(roots, []), sources), sources)
    nets = [sorted(bits, key=depth.get)
            for bits in sorted(roots, key=lambda bits: -max(map(depth.get, bits)))]
    return [sum(nets, []), sum([bits[::-1] for bits in nets], []),
            sorted(sum(nets, []), key=depth.get)]


def best_order(roots, sources, groups):
    """The bits of each group in a new order, or the groups as they are, where these promise few
    nodes or no walk promises far fewer. The groups stand one behind the other; the roots are lists
    of bits, net by net."""
    begun = starts([bits for bits in roots if bits], sources)
    cones = some_cones(begun[-1][::-1], sources)
    tries = [[list(group) for group in groups]]
    for start in begun:
        met = {bit: place for place, bit in enumerate(walk(start, sources))}
        tries.append([sorted(group, key=lambda bit: met.get(bit, len(met))) for group in groups])
    bounds = [bound(sum(order, []), cones, sources) for order in tries]
    least = min(bounds)
    return tries[0] if bounds[0] <= max(ENOUGH, least ** LEAST_GAIN) else tries[bounds.index(least)]


def runs(bits, own_bits, stays=lambda name: False):
    """Bits, as (name, index), as nets in their order: (name, None) for one that stands whole, since
    its bits stand side by side or since it has to stay so, and (name, index) for each bit of the
    others."""
    bits = list(dict.fromkeys(bit for name, index in bits
                              for bit in (stays(name) and own_bits(name) or [(name, index)])))
    found, place = [], 0
    while place < len(bits):
        name, index = bits[place]
        whole = own_bits(name)
        is_whole = bool(whole) and set(bits[place:place + len(whole)]) == set(whole)
        found.append((name, None if is_whole else index))
        place += len(whole) if is_whole else 1
    return found
