"""Which lists of pairs route a net, and which routings route a problem, from the definitions."""
from device import SINK


def reached(pairs, begin):
    """The nodes to which a path of the pairs leads from a node, that node among them."""
    met, waiting = {begin}, [begin]
    while waiting:
        node = waiting.pop()
        for before, after in pairs:
            if before == node and after not in met:
                met.add(after)
                waiting.append(after)
    return met


def is_listed(device, source, pairs):
    """Whether each path goes on from the one before, or begins, after a sink, at the source or at an end met before."""
    if pairs and pairs[0][0] != source:
        return False
    for place in range(1, len(pairs)):
        before = pairs[place - 1][1]
        met = {source, *(end for _, end in pairs[:place])}
        if pairs[place][0] != before and not (device.nodes[before].kind == SINK and pairs[place][0] in met):
            return False
    return True


def dangles(pairs, source, sinks):
    """Whether some pair can't be reached from the source, or leads to none of the sinks."""
    from_source = reached(pairs, source)
    return any(end not in from_source or not reached(pairs, end) & sinks for _, end in pairs)


def tree_fault(device, source, sinks, pairs):
    """The first of the faults of a net's list, None if it routes the net."""
    ends, wanted = [end for _, end in pairs], set(sinks)
    sinks_met = {end for end in ends if end < len(device.nodes) and device.nodes[end].kind == SINK}
    faults = (
        ("WrongSource", lambda: not pairs or pairs[0][0] != source),
        ("NoSwitch", lambda: any(end not in device.successors[begin] for begin, end in pairs)),
        ("NodeTwice", lambda: len(set(ends)) < len(ends) or source in ends),
        ("SecondOutput", lambda: sum(begin == source for begin, _ in pairs) > 1),
        ("ForeignSink", lambda: bool(sinks_met - wanted)),
        ("Dangling", lambda: dangles(pairs, source, wanted)),
        ("MissingSink", lambda: sinks_met != wanted),
        ("Order", lambda: not is_listed(device, source, pairs)),
    )
    return next((name for name, holds in faults if holds()), None)


def covered(source, pairs):
    return {source, *(end for _, end in pairs)}


def overuse(device, problem, lists):
    """The overused nodes in ascending order, each with the number of nets too many."""
    uses = [0] * len(device.nodes)
    for (source, _), pairs in zip(problem, lists):
        for node in covered(source, pairs) if pairs is not None else ():
            uses[node] += 1
    return [(node, used - room) for node, (used, room) in enumerate(zip(uses, device.capacities)) if used > room]


def verdict(device, design, lists):
    """What `check` prints for lists of pairs, or None, one for each routed net."""
    problem = list(design.problem(device))
    for net, (source, sinks), pairs in zip(design.routed(), problem, lists):
        fault = "Unrouted" if pairs is None else tree_fault(device, source, sinks, pairs)
        if fault:
            return f"not legal: net {net.number} ({net.name}): {fault}\n"
    for node, by in overuse(device, problem, lists):
        return f"not legal: node {node} {device.text(device.nodes[node])} overused by {by}\n"
    return "legal\n"
