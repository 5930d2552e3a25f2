"""Lines that are handed to sessions, and what comes of each, told by the line and by the records that the file then holds. What a cell
gives is taken as it is answered; that a commit's record has the cell's text and goes on from the head is looked at, and all that is
answered of commits, branches, names and groups is told by the records."""
import json

import mutations
import picture_rules
import python_cells
import session_rules
from session_cases import BAD_LINES, BAD_NAMES, BAD_REFERENCES
from store_rules import (
    HEADER, LONGEST_CELL, Graph, NoFit, bodies_in, entry_of, is_branch_name, move_to_branch_body, move_to_commit_body, name_body,
)

CELLS = [
    "a = [1]; b = a", "b.append(2)", "print(a, a is b)", "x = 1", "x += 1; x", "y = {'k': a}", "del x", "1 // 0", "x = = 1", "", "f(1)", "def f(n, seen=[]): seen.append(n); return seen",
    "s = '\u00fc\\n\u20ac\\t'; s", "t = (1, 'b', None)", "z = SimpleNamespace(a=a)", "a = 0", "b", "raise ValueError('no', a)",
]
NAMES = ["try", "b-1", "_x", "main", "T" * 64, *BAD_NAMES[:6]]
REFERENCES = [*["0", "1", "2", "3", "main", "try"] * 5, "10", "_x", *BAD_REFERENCES]
MOST_LINES = 240
OUTCOMES = ("ok", "error", "stopped")


def request(rng):
    """A request, most of them good ones."""
    return rng.choice([
        *[lambda: {"op": "cell", "text": rng.choice(CELLS)}] * 3, lambda: {"op": "cells", "texts": [rng.choice(CELLS) for _ in range(rng.choice([1, 2, 3]))]},
        *[lambda: {"op": "checkout", "to": rng.choice(REFERENCES)}] * 2, lambda: {"op": "branch", "name": rng.choice(NAMES)},
        lambda: {"op": "branch", "name": rng.choice(NAMES), "at": rng.choice(REFERENCES)}, lambda: {"op": rng.choice(["log", "status", "inspect"])},
        lambda: {"op": "stored", "of": rng.choice(REFERENCES)}, lambda: {"op": "plan", "to": rng.choice(REFERENCES)},
    ])()


def escaped(rng, line):
    """A line in which a sign of a text is told by its number."""
    places = [at for at, sign in enumerate(line) if sign.isalnum()]
    if not places:
        return line
    at = rng.choice(places)
    return line[:at] + rng.choice(["\\u%04x", "\\u%04X"]) % ord(line[at]) + line[at + 1 :] if ord(line[at]) < 2**16 else line


def spaced(rng, line):
    at = rng.randrange(len(line) + 1)
    return line[:at] + rng.choice([" ", "\t", "\r", "\f", "\u00a0", "  ", "\v"]) + line[at:]


def with_key(rng, value):
    """A request with a key more or less, or with a value of another kind."""
    value = dict(value)
    key = rng.choice([*value, "op", "text", "texts", "to", "at", "name", "of", "x"])
    if key in value and rng.random() < 0.3:
        del value[key]
    else:
        value[key] = rng.choice([0, None, True, [], {}, "1", "cell", "log", "main", ["a"], [1], 1.5, -0.0, 10**400, "", [["a"]], {"a": "b"}])
    return value


def line_of(rng):
    kind = rng.random()
    if kind < 0.06:
        return rng.choice([rng.choice(BAD_LINES), mutations.changed(rng, rng.choice(BAD_LINES))])
    if kind < 0.08:
        deep = rng.choice([1, 60, 125, 126, 127, 128, 200, 5000])
        return rng.choice([b"[", b'{"a":']) * deep + rng.choice([b"", b"]" * deep, b"1" + b"}" * deep])
    value = request(rng)
    if kind < 0.4:
        return json.dumps(value, ensure_ascii=rng.random() < 0.5).encode()
    if kind < 0.52:
        return json.dumps(with_key(rng, value)).encode()
    line = json.dumps(value, ensure_ascii=rng.random() < 0.5, separators=(",", ":"))
    if kind < 0.64:
        return rng.choice([escaped, spaced])(rng, line).encode()
    return mutations.changed(rng, line.encode())


def lines_input(rng):
    """The lines of a session."""
    return b"\n".join(line_of(rng) for _ in range(MOST_LINES)) + rng.choice([b"", b"\n"])


class Differs(Exception):
    """Something is otherwise than the rules have it: what, what was found, and what was wanted."""


def expect(what, found, wanted):
    if found != wanted:
        raise Differs(what, found, wanted)


def is_shown_alike(out):
    """Whether CPython shows each character of an output as the language does, which escapes none above 127."""
    return all(sign.isprintable() or ord(sign) < 128 for sign in out.decode("utf-8", "replace"))


class Followed:
    """A session that is followed by the records which the file holds afterwards."""

    def __init__(self, file):
        self.file, self.graph = file, Graph()
        self.bodies, self.end, _ = bodies_in(file)
        self.at = len(HEADER) + 9  # where the next body stands
        self.left = iter(self.bodies)

    def next_body(self):
        return next(self.left, b"")

    def note(self, body):
        """Puts a record's change into the graph."""
        try:
            self.graph.add(entry_of(body), self.at)
        except NoFit:
            raise Differs("a record that doesn't fit", body, None) from None
        self.at += len(body) + 9

    def recorded(self, body):
        """Notes a record that has to stand next in the file."""
        expect("a record", self.next_body(), body)
        self.note(body)

    def committed(self, texts):
        """Notes a commit of the first of some texts, and answers how many they are."""
        body = self.next_body()
        try:
            entry = entry_of(body)
        except NoFit:
            raise Differs("a record that isn't one", body, texts) from None
        expect("a commit", (entry[0], entry[1]), ("commit", self.graph.commit))
        expect("its cells", entry[2], texts[: len(entry[2])])
        self.note(body)
        return len(entry[2])

    def result(self, found, count):
        """A result of a cell is of its form, and has its number."""
        expect("a result's keys", set(found), {"count", "outcome", "outputs"})
        expect("a result", (found["count"], found["outcome"] in OUTCOMES, isinstance(found["outputs"], list)), (count, True, True))

    def told(self, request, found):
        """What is answered to a request, where that and the file are right."""
        try:
            if request is None:
                raise session_rules.Refused(1)
            return getattr(self, request["op"])(found, **{key: part for key, part in request.items() if key != "op"})
        except session_rules.Refused as refusal:
            return {"answer": "refused", "number": refusal.args[0], "reason": session_rules.REASONS[refusal.args[0]]}

    def target(self, reference):
        found = self.graph.resolve(reference)
        if found is None:
            raise session_rules.Refused(2)
        return found

    def run(self, texts, results):
        if any(len(text.encode()) > LONGEST_CELL for text in texts):
            raise session_rules.Refused(6)
        count = self.graph.count(self.graph.commit)
        expect("results", self.committed(texts), len(results))
        for number, result in enumerate(results, count + 1):
            self.result(result, number)
        expect("where the cells end", [result["outcome"] == "ok" for result in results[:-1]], [True] * (len(results) - 1))
        expect("all cells", len(results) == len(texts) or results[-1]["outcome"] != "ok", True)

    def cell(self, found, text):
        self.run([text], [{key: found.get(key) for key in ("count", "outcome", "outputs")}])
        return found | {"answer": "cell", "commit": self.graph.commit}

    def cells(self, found, texts):
        self.run(texts, found.get("results", []))
        return found | {"answer": "cells", "commit": self.graph.commit}

    def checkout(self, found, to):
        commit, branch = self.target(to)
        self.recorded(move_to_commit_body(commit) if branch is None else move_to_branch_body(branch))
        return {"answer": "checkout", "commit": commit, "head": branch}

    def branch(self, found, name, at=None):
        if not is_branch_name(name):
            raise session_rules.Refused(3)
        if name in self.graph.branches:
            raise session_rules.Refused(4)
        commit = self.graph.commit if at is None else self.target(at)[0]
        self.recorded(name_body(name, commit))
        return {"answer": "branch", "commit": commit, "name": name}

    def log(self, found):
        return session_rules.Session.log(self)

    def table(self):
        return self.graph.tables[self.graph.commit]

    def status(self, found):
        names = sorted(name for row in self.table() for name in row.names)
        graph = self.graph
        return {"answer": "status", "branch": graph.branch, "commit": graph.commit, "commits": len(graph.parents), "names": names, "records": graph.records}

    def stored(self, found, of):
        self.target(of)
        return session_rules.Session.stored(self, of)

    def plan(self, found, to):
        self.target(to)
        return session_rules.Session.plan(self, to)

    def rows_to(self, commit):
        return session_rules.Session.rows_to(self, commit)

    def inspect(self, found):
        """What the pictures of the head's table tell. It is taken as it is answered where CPython shows a character otherwise."""
        self.space = python_cells.empty_space()
        try:
            for row in self.table():
                expect("names", tuple(picture_rules.load(self.file[row.place : row.place + row.length], self.space)), row.names)
        except picture_rules.NoPicture as fault:
            raise Differs("a picture", fault.args[0], None) from None
            picture_rules.expect_single_constants(self.space, python_cells.names_in(self.space))
        except python_cells.Unlike:
            return found
        return session_rules.Session.inspect(self) if is_shown_alike(json.dumps(found, ensure_ascii=False).encode("utf-8", "replace")) else found


def follow(data, out, file):
    """How many of the lines are refused for which reason, where all is answered by the rules. Differs: something isn't."""
    session, counts = Followed(file), {}
    lines, answers = session_rules.lines_of(data)[0], out.split(b"\n")
    expect("the number of answers", len(answers) - 1, len(lines))
    for line, answer in zip(lines, answers):
        try:
            found = json.loads(answer)
        except ValueError:
            raise Differs("an answer", answer, line) from None
        wanted = session.told(session_rules.request_of(line), found)
        expect(f"the answer to {line!r}", answer + b"\n", session_rules.answer_line(wanted))
        reason = wanted.get("reason", wanted["answer"])
        counts[reason] = counts.get(reason, 0) + 1
    expect("further records", list(session.left), [])
    expect("the end of the file", file[session.end :], b"\0")
    return counts
