"""The plain model of a store and its session for play.py: whole states for commits, and requests that are
answered on them, from docs/LINES.md, docs/NOTEBOOKS.md and docs/STORE.md alone."""
import hashlib
import json
import re

from cells import run_cell
from lines import Bad, line_of, outputs_of, read_request, refusal
from notebooks import code_cells, set_result, text_of, written
from states import changes, copy_state, groups_of, members, numbered, same_shape
from store_bytes import File, picture, state_size
from values import Function, Raised, Thing, is_node, kind, plain_text, run

LONGEST_CELL = 1_048_576
LARGEST_STATE = 268_435_456
MOST_RECORDS = 1_000_000


class Commit:
    """A commit with its whole state; `table` has the version of each group, and `places` where the stored pictures begin."""

    def __init__(self, parent, cells, state, dropped, stored, table, count):
        self.parent, self.cells, self.state = parent, cells, state
        self.dropped, self.stored, self.table, self.count = dropped, stored, table, count
        self.places = {}


class Refused(Exception):
    """A request that changes nothing."""

    def __init__(self, reason, **more):
        super().__init__(reason)
        self.answer = refusal(reason, **more)


class Model:
    """A store, and the session that is open on it."""

    def __init__(self, begun=b""):
        self.file = File(begun)
        self.commits = [Commit(None, [], {}, [], [], {}, 0)]
        self.branches = {"main": 0}
        self.at, self.branch = 0, "main"
        self.live = {}
        self.good = True
        self.marks = []  # of each record the graph before it

    def open(self):
        """A run begins: what is live is what the file tells."""
        self.file.begin()
        self.live = copy_state(self.commits[self.at].state)

    def answer(self, line):
        """The line that answers a line of input."""
        try:
            request = read_request(line)
        except Bad:
            return line_of(refusal("BadRequest"))
        return self.ask(request)

    def ask(self, request):
        """The line that answers a request."""
        return line_of(self.told(request))

    def told(self, request):
        """What answers a request."""
        run.names = self.live
        try:
            return getattr(self, "do_" + request["op"])(request)
        except Refused as refused:
            return refused.answer
        finally:
            run.names = {}

    def referred(self, text):
        """The commit that a reference names, and the branch where it is one."""
        if re.fullmatch("0|[1-9][0-9]*", text):
            if len(text) < 10 and int(text) < len(self.commits):
                return int(text), None
        elif text in self.branches:
            return self.branches[text], text
        raise Refused("NoSuchRef")

    def mark(self):
        """Note the graph, before a record is appended."""
        self.marks.append((len(self.commits), dict(self.branches), self.at, self.branch))

    def shut(self, records, byte):
        """The gate behind some records is closed by hand: the graph is the one before the next."""
        if records < len(self.marks):
            count, self.branches, self.at, self.branch = self.marks[records]
            del self.marks[records:], self.commits[count:]
        self.file.shut(records, byte)

    def rewrite(self, kind, texts):
        """Write the file anew as one that no run makes now, and take the states that it tells: `older`, without groups;
        `joined`, one group of all names for each commit; `altered`, other cells than those that left the states."""
        self.file = File()
        self.live = {}
        graphs = self.marks[1:] + [(len(self.commits), dict(self.branches), self.at, self.branch)]
        for (count, branches, _, _), after in zip(list(self.marks), graphs):
            if after[0] > count:
                commit = self.commits[count]
                self.alter(kind, texts, count, commit)
                self.write(commit)
            elif len(after[1]) > len(branches):
                name = (set(after[1]) - set(branches)).pop()
                self.file.name(name, after[1][name])
            else:
                self.file.move(after[2], after[3])

    def alter(self, kind, texts, number, commit):
        if kind == "altered":
            commit.cells = [texts[(number + place) % len(texts)] for place in range(len(commit.cells))]
            return
        self.good = False
        commit.dropped = list(self.commits[commit.parent].table)
        if kind == "older":
            commit.state = {}
        commit.stored = [tuple(sorted(commit.state))] if commit.state else []
        commit.table = {group: number for group in commit.stored}

    def write(self, commit):
        """The record of a commit."""
        pictures = [picture(commit.state, group) for group in commit.stored]
        place = self.file.commit(commit.parent, commit.cells, commit.dropped, commit.stored, pictures)
        for group, one in zip(commit.stored, pictures):
            commit.places[group] = place
            place += len(one)

    def place_of(self, number, group):
        """Where the picture of a group of a commit's table begins in the file."""
        return self.commits[self.commits[number].table[group]].places[group]

    def room(self):
        if self.file.records >= MOST_RECORDS:
            raise Refused("StoreFull")

    def do_cell(self, request):
        results = self.commit([request["text"]])
        return dict(results[0], answer="cell", commit=self.at)

    def do_cells(self, request):
        results = self.commit(request["texts"])
        return {"answer": "cells", "commit": self.at, "results": results}

    def commit(self, texts):
        if any(len(text.encode()) > LONGEST_CELL for text in texts):
            raise Refused("CellTooLong")
        self.room()
        parent, cells, results = self.commits[self.at], [], []
        run.accessed = set()
        for text in texts:
            count = parent.count + len(cells) + 1
            outcome, *shown = run_cell(text)
            size = self.size(parent)
            if size > LARGEST_STATE:
                self.live = copy_state(parent.state)
                raise Refused("StateTooLarge", bytes=min(size, 2**64 - 1))
            cells.append(text)
            results.append({"count": count, "outcome": outcome, "outputs": outputs_of(count, *shown)})
            if outcome != "ok":
                break
        self.record(cells)
        return results

    def size(self, parent):
        """How many bytes the state takes: the rows that hold no accessed name, and the groups of all other names."""
        if self.good:
            return state_size(self.live, groups_of(self.live))
        rest = [row for row in parent.table if not run.accessed.intersection(row)]
        others = {name: value for name, value in self.live.items() if not any(name in row for row in rest)}
        return state_size(parent.state, rest) + state_size(others, groups_of(others))

    def changed(self, parent, state):
        """The groups that a commit drops and stores, and those that stay, by the table and the accessed names."""
        touched = [row for row in parent.table if run.accessed.intersection(row)]
        groups = groups_of({name: state[name] for name in run.accessed.union(*touched) if name in state})
        stay = [group for group in groups if group in touched and same_shape(group, parent.state, state)]
        dropped = sorted(row for row in touched if row not in stay)
        stored = [group for group in groups if group not in stay]
        if self.good:
            self.check_changes(parent.state, state, dropped, stored)
        return dropped, stored

    def check_changes(self, before, after, dropped, stored):
        """Of a good store the accessed names tell what the whole states tell."""
        assert (dropped, stored) == changes(before, after), "what changed isn't told by the accessed names"

    def record(self, cells):
        """The commit of the live state."""
        parent, state, number = self.commits[self.at], copy_state(self.live), len(self.commits)
        dropped, stored = self.changed(parent, state)
        table = {group: version for group, version in parent.table.items() if group not in dropped}
        table.update((group, number) for group in stored)
        commit = Commit(self.at, cells, state, dropped, stored, table, parent.count + len(cells))
        before = {group: picture(parent.state, group) for group in dropped if group in stored}
        assert not any(before[group] == picture(state, group) for group in before), "a group is stored that stayed"
        self.mark()
        self.write(commit)
        self.commits.append(commit)
        self.at = number
        if self.branch is not None:
            self.branches[self.branch] = number

    def do_checkout(self, request):
        commit, branch = self.referred(request["to"])
        self.room()
        self.mark()
        self.file.move(commit, branch)
        self.at, self.branch = commit, branch
        self.live = copy_state(self.commits[commit].state)
        return {"answer": "checkout", "commit": commit, "head": branch}

    def do_branch(self, request):
        name = request["name"]
        if not re.fullmatch("[A-Za-z_][A-Za-z0-9_-]{0,63}", name):
            raise Refused("BadName")
        if name in self.branches:
            raise Refused("NameTaken")
        commit = self.referred(request["at"])[0] if "at" in request else self.at
        self.room()
        self.mark()
        self.file.name(name, commit)
        self.branches[name] = commit
        return {"answer": "branch", "commit": commit, "name": name}

    def do_log(self, _):
        branches = [{"commit": self.branches[name], "name": name} for name in sorted(self.branches)]
        path, number = [], self.at
        while number:
            commit = self.commits[number]
            line = re.split("[\r\n]", commit.cells[0])[0][:60]
            path.append({"cells": len(commit.cells), "commit": number, "line": line, "parent": commit.parent})
            number = commit.parent
        return {"answer": "log", "branches": branches, "path": path}

    def do_status(self, _):
        names = sorted(self.live)
        return {
            "answer": "status", "branch": self.branch, "commit": self.at, "commits": len(self.commits), "names": names,
            "records": self.file.records,
        }

    def do_inspect(self, _):
        names = sorted(self.live)
        order, numbers = numbered(self.live, names)

        def told(value):
            return f"#{numbers[id(value)]}" if is_node(value) else plain_text(value)

        rows = []
        for node in order:
            if isinstance(node, dict):
                rows.append(["dict"] + [text for key, value in node.items() for text in (plain_text(key), told(value))])
            elif isinstance(node, Thing):
                rows.append(["object"] + [text for name, value in node.entries.items() for text in (name, told(value))])
            elif isinstance(node, Function):
                rows.append(["function", "1", node.code] + list(map(told, node.defaults)))
            elif isinstance(node, Raised):
                rows.append(["exception", node.kind] + list(map(told, node.items)))
            else:
                rows.append([kind(node)] + list(map(told, members(node))))
        return {"answer": "inspect", "commit": self.at, "names": {name: told(self.live[name]) for name in names}, "nodes": rows}

    def do_stored(self, request):
        number, _ = self.referred(request["of"])
        commit = self.commits[number]
        return {"answer": "stored", "commit": number, "dropped": commit.dropped, "stored": commit.stored}

    def do_plan(self, request):
        number, _ = self.referred(request["to"])
        here, there = self.commits[self.at].table, self.commits[number].table
        keep = [group for group in sorted(there) if here.get(group) == there[group]]
        return {
            "answer": "plan", "commit": number, "drop": [group for group in sorted(here) if group not in keep], "keep": keep,
            "load": [group for group in sorted(there) if group not in keep],
        }

    # Runs by words.

    def run_notebook(self, notebook, together):
        """Run the code cells of a notebook and set what they gave."""
        cells = code_cells(notebook)
        if together:
            texts = [text_of(cell) for cell in cells]
            answer = self.told({"op": "cells", "texts": texts}) if cells else {"results": []}
            results = answer.get("results", [answer])
        else:
            results = []
            for cell in cells:
                results.append(self.told({"op": "cell", "text": text_of(cell)}))
                if results[-1].get("outcome") != "ok":
                    break
        for cell, result in zip(cells, results):
            set_result(cell, result)
        return written(notebook)

    def cell_of_input(self, data):
        """The line that answers `STORE cell`, whose cell is the whole input."""
        try:
            return self.ask({"op": "cell", "text": data.decode()})
        except UnicodeDecodeError:
            return line_of(refusal("BadRequest"))

    def generate(self, start, count):
        """The line that sums up `STORE gen START N`."""
        digest, number, cells = hashlib.sha256(), start, 0
        for k in range(1, count + 1):
            number = (1_103_515_245 * number + 12_345) % 2**31
            drawn = number // 65_536
            i, j, w = drawn % 10, drawn // 10 % 10, drawn // 100 % 10
            if k > 10 and w == 9:
                request = {"op": "checkout", "to": str(drawn % (1 + cells))}
            else:
                forms = [f"v{i} = [{k}, {j}]"] * 3 + [f"v{i} = [v{j}]"] * 2 + [f"v{i}.append({k})"] * 2
                forms += [f"print(v{i} is v{j}, len(v{j}))", f"v{i} = v{j}"]
                request = {"op": "cell", "text": forms[w] if k > 10 else f"v{k - 1} = [{k}]"}
                cells += 1
            digest.update(self.answer(json.dumps(request).encode()))
        return line_of({"answer": "gen", "commits": len(self.commits), "records": self.file.records, "sha256": digest.hexdigest()})
