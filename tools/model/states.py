"""Whole states for play.py: copies of them with sharing kept, the groups of their names by a walk with
`id()`, and whether two groups have one shape, all from scratch each time; from docs/LANGUAGE.md, docs/PICTURES.md and
docs/LINES.md alone."""
from values import Function, Thing, Tup, is_node


def members(node):
    """The values that a node holds, in order."""
    if isinstance(node, (list, Tup)):
        return list(node)
    if isinstance(node, dict):
        return list(node.values())
    if isinstance(node, Thing):
        return list(node.entries.values())
    return list(node.defaults if isinstance(node, Function) else node.items)


def copy_state(names):
    """A copy of all that the names reach: what is one thing in it is one thing in the copy."""
    copies = {}
    return {name: copy_value(value, copies) for name, value in names.items()}


def copy_value(value, copies):
    if not is_node(value):
        return value
    if id(value) in copies:
        return copies[id(value)]
    if isinstance(value, Tup):
        items = [copy_value(item, copies) for item in value]
        # A walk around a cycle may have met the tuple again.
        return copies.setdefault(id(value), Tup(items)) if id(value) not in copies else copies[id(value)]
    if isinstance(value, list):
        made = copies[id(value)] = []
        made.extend(copy_value(item, copies) for item in value)
    elif isinstance(value, dict):
        made = copies[id(value)] = {}
        for key, item in value.items():
            made[key] = copy_value(item, copies)
    elif isinstance(value, Thing):
        made = copies[id(value)] = Thing({})
        for name, item in value.entries.items():
            made.entries[name] = copy_value(item, copies)
    elif isinstance(value, Function):
        made = copies[id(value)] = Function(value.name, value.code, value.params, [], value.body)
        made.defaults.extend(copy_value(item, copies) for item in value.defaults)
    else:
        made = copies[id(value)] = type(value)()
        made.items.extend(copy_value(item, copies) for item in value.items)
    return made


def reached(value):
    """The nodes that a value reaches, by their ids."""
    found, ahead = {}, [value]
    while ahead:
        one = ahead.pop()
        if is_node(one) and id(one) not in found:
            found[id(one)] = one
            ahead.extend(members(one))
    return found


def groups_of(names):
    """The groups of names that share nodes, each as a tuple of names in byte order, by their first names."""
    groups = []
    for name in sorted(names):
        nodes = set(reached(names[name]))
        joined = [group for group in groups if group[1] & nodes]
        groups = [group for group in groups if not group[1] & nodes]
        groups.append(([name] + [one for group in joined for one in group[0]], nodes.union(*[group[1] for group in joined])))
    return sorted(tuple(sorted(group)) for group, _ in groups)


def same_plain(one, other):
    """Whether two values that are no nodes, or two keys, are of one kind and equal."""
    if type(one) is not type(other):
        return False
    if type(one) is tuple:
        return len(one) == len(other) and all(map(same_plain, one, other))
    if isinstance(one, range):
        return (one.start, one.stop, one.step) == (other.start, other.stop, other.step)
    return one is other if one is None else one == other


def labels(node):
    """What a node tells of itself beside the values that it holds."""
    if isinstance(node, dict):
        return list(node)
    if isinstance(node, Thing):
        return list(node.entries)
    return [node.code] if isinstance(node, Function) else []


def same_shape(group, one, other):
    """Whether the names of a group stand for the same in two states, with sharing and identity."""
    pairs, forth, back = [(one[name], other[name]) for name in group], {}, {}
    while pairs:
        first, second = pairs.pop()
        if not is_node(first) or not is_node(second):
            if is_node(first) or is_node(second) or not same_plain(first, second):
                return False
            continue
        if id(first) in forth or id(second) in back:
            if forth.get(id(first)) is not second or back.get(id(second)) is not first:
                return False
            continue
        forth[id(first)], back[id(second)] = second, first
        if not same_labels(first, second):
            return False
        pairs.extend(zip(members(first), members(second)))
    return True


def same_labels(first, second):
    """Whether two nodes are of one kind, with equal labels and as many members."""
    told, untold = labels(first), labels(second)
    if type(first) is not type(second) or len(told) != len(untold) or len(members(first)) != len(members(second)):
        return False
    return all(map(same_plain, told, untold))


def changes(before, after):
    """The groups that are dropped and stored between two states."""
    old, new = groups_of(before), groups_of(after)
    stay = [group for group in new if group in old and same_shape(group, before, after)]
    return [group for group in old if group not in stay], [group for group in new if group not in stay]


def numbered(names, group):
    """The nodes of a picture of some names, in the order of first meeting, and their numbers by ids."""
    order, numbers = [], {}

    def meet(values):
        for value in values:
            if is_node(value) and id(value) not in numbers:
                numbers[id(value)] = len(order)
                order.append(value)

    meet(names[name] for name in group)
    place = 0
    while place < len(order):
        meet(members(order[place]))
        place += 1
    return order, numbers
