"""Looks whether play.py sees what is wrong: each row of SPOILT is something of the program or of the model that is
spoilt, and some sessions are played until one differs.

    python3 tools/model/spoilt.py --program PROGRAM [--cases COUNT] [--seed SEED] [--jobs JOBS]

The first row spoils nothing, and no session of it may differ; of each other row one must, or the status is 1.
"""
import argparse
import multiprocessing
import random
import sys

import cells
import lines
import machine
import play
import states
import store_bytes
import values
from play import Player


class FlippingPlayer(Player):
    """A program that changes one bit of its file, somewhere behind the header."""

    def file_bytes(self):
        data = bytearray(super().file_bytes())
        if len(data) > 17:
            data[random.Random(len(data)).randrange(17, len(data))] ^= 1
        return bytes(data)


class DroppingPlayer(Player):
    """A program that once leaves out an answer before which another one is under way."""

    dropped = False

    def read(self):
        if not self.dropped and len(self.waiting) > 1 and self.waiting[0][1] != self.waiting[1][1]:
            self.dropped = True
            self.process.stdin.flush()
            self.next_answer()
        super().read()


class SwappingPlayer(Player):
    """A program that writes the first two groups of a commit in the other order."""

    def file_bytes(self):
        data = super().file_bytes()
        for place in commits_in(data):
            stored = stored_in(data, place)
            if len(stored) > 1:
                return swapped(data, *stored[:2])
        return data


def number_at(data, place, size=4):
    return int.from_bytes(data[place : place + size], "big")


def commits_in(data):
    """The places of the heads of commits."""
    place = 16
    while len(data) > place and data[place] == 0xA5:
        if data[place + 13] == 1:
            yield place + 13
        place += 9 + number_at(data, place + 1, 8)


def stored_in(data, place):
    """Of each stored group of a commit where its names begin, where they end, and where its picture begins and ends."""
    picture, place = place + number_at(data, place - 4), place + 10
    for _ in range(number_at(data, place - 4)):
        place += 4 + number_at(data, place)
    place += 4
    for _ in range(number_at(data, place - 4)):
        place = names_end(data, place)
    groups = []
    for _ in range(number_at(data, place)):
        begin = groups[-1][1] if groups else place + 4
        end = names_end(data, begin) + 8
        size = number_at(data, end - 8, 8)
        groups.append((begin, end, picture, picture + size))
        picture += size
    return groups


def names_end(data, place):
    names, place = number_at(data, place), place + 4
    for _ in range(names):
        place += 1 + data[place]
    return place


def swapped(data, one, other):
    """The bytes with two stored groups, and their pictures, in the other order."""
    head = data[other[0] : other[1]] + data[one[0] : one[1]]
    pictures = data[other[2] : other[3]] + data[one[2] : one[3]]
    return data[: one[0]] + head + data[other[1] : one[2]] + pictures + data[other[3] :]


def spoil_player(player):
    play.Player = player


def groups_by_first_link(names):
    """Groups in which a name joins only the first group that shares a node with it."""
    groups = []
    for name in sorted(names):
        nodes = set(states.reached(names[name]))
        joined = next((group for group in groups if group[1] & nodes), None)
        if joined:
            joined[0].append(name)
            joined[1].update(nodes)
        else:
            groups.append(([name], nodes))
    return sorted(tuple(sorted(group)) for group, _ in groups)


def merge_wrongly():
    machine.groups_of = states.groups_of = groups_by_first_link
    forget_whole_states()


def forget_whole_states():
    """The model doesn't compare what changed with the whole states, so that the program has to tell."""
    machine.Model.check_changes = lambda *_: None


def leave_out(name):
    """A helper of cells leaves no name accessed."""
    plain = cells.HELPERS[name]

    def helper(*parts):
        accessed = set(values.run.accessed)
        try:
            return plain(*parts)
        finally:
            values.run.accessed = accessed

    cells.HELPERS[name] = helper
    forget_whole_states()


def copy_name_by_name():
    """A checkout loses what names share."""
    plain = states.copy_value
    machine.copy_state = lambda names: {name: plain(value, {}) for name, value in names.items()}


def spend_a_step_more():
    values.STEPS -= 1


def number_depth_first():
    """Pictures number nodes as a walk into the depth meets them."""

    def numbered(names, group):
        order, numbers = [], {}

        def meet(value):
            if states.is_node(value) and id(value) not in numbers:
                numbers[id(value)] = len(order)
                order.append(value)
                for one in states.members(value):
                    meet(one)

        for name in group:
            meet(names[name])
        return order, numbers

    store_bytes.numbered = numbered


def keep_by_names():
    """`plan` keeps groups of the same names, whatever their versions are."""

    def do_plan(model, request):
        number, _ = model.referred(request["to"])
        here, there = model.commits[model.at].table, model.commits[number].table
        keep = [group for group in sorted(there) if group in here]
        rest = [group for group in sorted(here) if group not in keep], [group for group in sorted(there) if group not in keep]
        return {"answer": "plan", "commit": number, "drop": rest[0], "keep": keep, "load": rest[1]}

    machine.Model.do_plan = do_plan


def refuse_in_another_order():
    """A branch at what isn't there is refused for that before its name is looked at."""
    plain = machine.Model.do_branch

    def do_branch(model, request):
        if "at" in request:
            model.referred(request["at"])
        return plain(model, request)

    machine.Model.do_branch = do_branch


def compare_numbers_alone():
    """Whether a group stayed is told by `==`, to which 1 and True are equal."""
    states.same_plain = lambda one, other: one == other


def leave_branches():
    """The branch stays where it is when a cell is committed on it."""
    plain = machine.Model.record

    def record(model, cell_texts):
        branches = dict(model.branches)
        plain(model, cell_texts)
        model.branches = branches

    machine.Model.record = record


def allow_deeper_lines():
    lines.NESTING += 1


SPOILT = {
    "nothing": lambda: None,
    "the program: one bit of the file": lambda: spoil_player(FlippingPlayer),
    "the program: an answer left out": lambda: spoil_player(DroppingPlayer),
    "the program: two stored groups swapped": lambda: spoil_player(SwappingPlayer),
    "the model: groups joined by their first link alone": merge_wrongly,
    "the model: reading isn't an access": lambda: leave_out("read_name"),
    "the model: unbinding isn't an access": lambda: leave_out("delete_name"),
    "the model: sharing lost by a checkout": copy_name_by_name,
    "the model: 1 and True are one value": compare_numbers_alone,
    "the model: nodes numbered in depth": number_depth_first,
    "the model: versions left out of a plan": keep_by_names,
    "the model: a step fewer": spend_a_step_more,
    "the model: another order of refusals": refuse_in_another_order,
    "the model: branches that stay": leave_branches,
    "the model: lines that nest deeper": allow_deeper_lines,
}


def seen(job):
    """The first session that differs with something spoilt, and in what, or None."""
    name, program, seed, cases = job
    play.prepare()
    SPOILT[name]()
    for number in range(cases):
        told = play.one_case(([program], f"{seed}.{number}", False))[1]
        if told:
            return name, number + 1, told.split("\n")[0][:150]
    return name, None, ""


def main():
    parser = argparse.ArgumentParser(description=__doc__.split("\n", maxsplit=1)[0])
    parser.add_argument("--program", required=True)
    parser.add_argument("--cases", type=int, default=400)
    parser.add_argument("--seed", default="1")
    parser.add_argument("--jobs", type=int, default=2)
    options = parser.parse_args()
    wrong = 0
    with multiprocessing.Pool(options.jobs, maxtasksperchild=1) as pool:
        for name, number, told in pool.imap(seen, [(name, options.program, options.seed, options.cases) for name in SPOILT], chunksize=1):
            wrong += (number is None) != (name == "nothing")
            print(f"{name}: session {number}, {told}" if number else f"{name}: no difference in {options.cases} sessions", flush=True)
    return 1 if wrong else 0


if __name__ == "__main__":
    sys.exit(main())
