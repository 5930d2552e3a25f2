"""Whether a store is good, read a second time: by docs/STORE.md, docs/PICTURES.md and docs/RULES.md, and by nothing of the program. The
cells of each commit's path are run from nothing; versions are told by comparing the groups and pictures of the states along the path, and
what a commit drops and stores by the versions."""
import hashlib

import bound_rules
import group_rules
import picture_rules
import python_cells
from store_rules import Damaged, NotAJournal, opened


class TooLarge(Exception):
    """The pictures of a state take more bytes than they may: how many is the argument."""


def run_on(space, texts):
    """Runs cells in a state, with its size looked at after each."""
    for text in texts:
        python_cells.run(text, space)
        size = group_rules.size(space, [])
        if size > bound_rules.MOST_BYTES:
            raise TooLarge(size)


def digest(data):
    return hashlib.sha256(data).digest()


def pictured(space):
    """The groups of a state with the digests of their pictures, which stand for these here."""
    return {group: digest(picture_rules.picture(space, group)) for group in group_rules.groups(space)}


def replays(graph):
    """Of each commit the groups of its replay with their pictures. The first child of a commit goes on with that commit's state; others
    run the whole path."""
    spaces, found = {0: python_cells.empty_space()}, [{}]
    for commit in range(1, len(graph.parents)):
        parent = graph.parents[commit]
        space = spaces.pop(parent, None)
        path = [commit] if space is not None else graph.path(commit)
        space = python_cells.empty_space() if space is None else space
        for number in path:
            run_on(space, graph.cells[number])
        spaces[commit] = space
        found.append(pictured(space))
    return found


def version(graph, states, commit, group):
    """The earliest commit of the path from which on the group has stood with one picture."""
    since = commit
    for number in reversed([0, *graph.path(commit)]):
        if states[number].get(group) != states[commit][group]:
            break
        since = number
    return since


def fault(file):
    """What makes a store not good, told in words. None: it is good. NotAJournal, Damaged: it holds no graph."""
    file, _, graph = opened(file)
    try:
        states = replays(graph)
    except TooLarge as size:
        return f"a state takes {size} bytes"
    for commit in range(1, len(graph.parents)):
        before, now = states[graph.parents[commit]], states[commit]
        dropped = sorted(group for group in before if now.get(group) != before[group])
        versions = {group: version(graph, states, commit, group) for group in now}
        stored = sorted(group for group in now if versions[group] == commit)
        if [*graph.dropped[commit]] != dropped:
            return f"commit {commit} drops {graph.dropped[commit]}, and has to drop {dropped}"
        if [*graph.stored[commit]] != stored:
            return f"commit {commit} stores {graph.stored[commit]}, and has to store {stored}"
        if {row.names: row.version for row in graph.tables[commit]} != versions:
            return f"commit {commit} has other versions than {versions}"
        for row in graph.tables[commit]:
            if row.version == commit and digest(file[row.place : row.place + row.length]) != now[row.names]:
                return f"commit {commit} has another picture of {row.names} at {row.place}"
    return None


def is_good(file):
    """Whether a file is a good store. None is no file."""
    try:
        return fault(file) is None
    except (NotAJournal, Damaged):
        return False
