"""Which nodes of a graph lead to one another and back. A graph has for each node the nodes to which it leads."""


def reached(start, steps, seen):
    """Yields what is reached from a node and was not seen, each behind what is reached from it first."""
    seen.add(start)
    path = [(start, iter(steps[start]))]
    while path:
        node, rest = path[-1]
        for step in rest:
            if step not in seen:
                seen.add(step)
                path.append((step, iter(steps[step])))
                break
        else:
            path.pop()
            yield node


def cycles(steps):
    """Returns for each node one that stands for all to which it leads and which lead back to it."""
    back = {node: [] for node in steps}
    for node, others in steps.items():
        for other in others:
            back[other].append(node)
    seen, order = set(), []
    for node in steps:
        if node not in seen:
            order.extend(reached(node, steps, seen))
    seen, found = set(), {}
    for start in reversed(order):
        if start not in seen:
            found.update((node, start) for node in reached(start, back, seen))
    return found
