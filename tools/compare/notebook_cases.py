"""Notebooks made at random by nbformat, of all that Jupyter writes into one; and what Kishu is to make of them."""
import base64
import copy
import json
import random

import nbformat
from nbformat import v4

WHOLE, NO_JSON, MINOR_4 = "a number is not whole", "not JSON", "minor 4"
WORDS = [
    "x = 7", "print(x)", "# a title", "for i in range(3):", "    total += i", "", "é", "中文", "👩‍🔬", "a\tb", "\"quoted\"", "back\\slash",
    "\x1b[31mred\x1b[0m", "\x7f", "\x01\x1f", "\u2028line", "\x0b", "</script>", "%matplotlib inline", "![a](attachment:image.png)", "$x^2$",
]
ENDS = ["\n", "\n", "\n", "\n\n", "\r\n", " "]
ANSI = [
    "\x1b[0;31m---------------------------------------------------------------------------\x1b[0m",
    "\x1b[0;31mZeroDivisionError\x1b[0m                         Traceback (most recent call last)",
    "Cell \x1b[0;32mIn[1], line 1\x1b[0m\n\x1b[0;32m----> 1\x1b[0m \x1b[38;5;241;43m1\x1b[39;49m\x1b[38;5;241;43m/\x1b[39;49m\n",
    "\x1b[0;31mZeroDivisionError\x1b[0m: division by zero",
]
ID_CHARS = "abcdefghijklmnopqrstuvwxyzABCDEFGHIJKLMNOPQRSTUVWXYZ0123456789-_"
NUMBERS = [0, 1, -1, 5, 100, 2**31, 2**53 + 1, 2**63 - 1, 2**64 - 1, -(2**63)]
FLOATS = [0.5, 1.0, -0.0, 1e3, 1e300, 3.141592653589793, 2.0**64, 2**64, -(2**63) - 1]


class Maker:
    """Makes one notebook after another from a seed."""

    def __init__(self, seed):
        self.random = random.Random(seed)

    def text(self, most=8):
        """A text of some lines."""
        choice = self.random.choice
        return "".join(choice(WORDS) + choice(ENDS) for _ in range(self.random.randrange(most))) + choice(["", choice(WORDS)])

    def picture(self):
        return base64.b64encode(self.random.randbytes(self.random.choice([1, 60, 3000, 20_000]))).decode()

    def value(self, depth=4):
        """A JSON value, of whole numbers alone."""
        kind = self.random.randrange(5 if depth == 0 else 7)
        if kind == 5:
            return [self.value(depth - 1) for _ in range(self.random.randrange(4))]
        if kind == 6:
            return {self.text(2): self.value(depth - 1) for _ in range(self.random.randrange(4))}
        return [None, self.random.random() < 0.5, self.random.choice(NUMBERS), self.text(3), self.random.randrange(-1000, 1000)][kind]

    def data(self):
        """What an output shows, by its kinds."""
        kinds = {
            "text/plain": self.text, "text/html": lambda: "<div>\n" + self.text() + "</div>", "image/png": self.picture,
            "image/svg+xml": lambda: "<svg>\n" + self.text(3) + "</svg>", "application/json": self.value,
            "application/vnd.vega.v5+json": lambda: {"data": self.value(), "width": 400}, "text/latex": self.text,
            "application/vnd.jupyter.widget-view+json": lambda: {"model_id": "8f1c", "version_major": 2, "version_minor": 0},
        }
        some = self.random.sample(sorted(kinds), self.random.randrange(1, 4))
        return {kind: kinds[kind]() for kind in some}

    def output(self, count):
        kind = self.random.choice(["stream", "stream", "display_data", "execute_result", "error"])
        if kind == "stream":
            return v4.new_output(kind, name=self.random.choice(["stdout", "stderr"]), text=self.text())
        if kind == "error":
            return v4.new_output(kind, ename="ZeroDivisionError", evalue="division by zero", traceback=list(ANSI))
        metadata = self.random.choice([{}, {"image/png": {"width": 640, "height": 480}}, {"isolated": True}])
        if kind == "display_data":
            return v4.new_output(kind, data=self.data(), metadata=metadata)
        return v4.new_output(kind, data=self.data(), metadata=metadata, execution_count=count)

    def cell_metadata(self):
        some = {
            "tags": ["a", "raises-exception"], "collapsed": True, "scrolled": "auto", "name": "a-cell", "editable": False,
            "jupyter": {"source_hidden": True, "outputs_hidden": False}, "slideshow": {"slide_type": "slide"}, "other": self.value(),
            "execution": {"iopub.execute_input": "2024-01-01T00:00:00.000000Z"},
        }
        return {key: some[key] for key in self.random.sample(sorted(some), self.random.choice([0, 0, 1, 3]))}

    def attachments(self):
        return {f"image {i}.png": {"image/png": self.picture()} for i in range(self.random.randrange(1, 3))}

    def cell(self):
        kind = self.random.choice(["code", "code", "code", "markdown", "raw"])
        shared = {"source": self.text(), "metadata": self.cell_metadata()}
        if kind == "code":
            count = self.random.choice([None, 0, 1, 17, 2**64 - 1])
            outputs = [self.output(count) for _ in range(self.random.choice([0, 0, 1, 1, 3]))]
            return v4.new_code_cell(execution_count=count, outputs=outputs, **shared)
        cell = v4.new_markdown_cell(**shared) if kind == "markdown" else v4.new_raw_cell(**shared)
        if self.random.random() < 0.3:
            cell["attachments"] = self.attachments()
        return cell

    def metadata(self):
        """What is told of the notebook as a whole: its kernel, its widgets, and what else tools put there."""
        slider = {"description": self.text(2), "layout": "IPY_MODEL_9a", "max": 100, "value": self.random.choice(NUMBERS), "flex": None}
        model = {"model_module": "@jupyter-widgets/controls", "model_module_version": "2.0.0", "model_name": "IntSliderModel", "state": slider}
        widgets = {"application/vnd.jupyter.widget-state+json": {"state": {"8f1c": model}, "version_major": 2, "version_minor": 0}}
        some = {
            "kernelspec": {"display_name": "Python 3 (ipykernel)", "language": "python", "name": "python3"},
            "language_info": {"codemirror_mode": {"name": "ipython", "version": 3}, "file_extension": ".py", "name": "python"},
            "widgets": widgets, "title": self.text(2), "authors": [{"name": self.text(1)}], "toc": {"base_numbering": 1, "nav_menu": {}},
            "other": self.value(6),
        }
        return {key: some[key] for key in self.random.sample(sorted(some), self.random.randrange(len(some) + 1))}

    def ids(self, count):
        found = {}
        while len(found) < count:
            found["".join(self.random.choices(ID_CHARS, k=self.random.choice([1, 8, 8, 36, 64])))] = None
        return list(found)

    def notebook(self):
        """A notebook that nbformat finds valid; some have a key more, `more`, which it would complain of."""
        made = v4.new_notebook(cells=[self.cell() for _ in range(self.random.choice([0, 1, 3, 8, 20]))], metadata=self.metadata())
        made["nbformat_minor"] = 5
        if self.random.random() < 0.5:
            for cell, name in zip(made["cells"], self.ids(len(made["cells"]))):
                cell["id"] = name
        nbformat.validate(made)
        if self.random.random() < 0.2:
            made["more"] = self.value()
        return made

    def bytes_of(self, made):
        """A notebook's file: mostly as Jupyter writes it, where texts are lists of lines; else its texts whole, in one line or more."""
        kind = self.random.randrange(4)
        if kind < 2:
            return (nbformat.writes(made) + "\n").encode()
        if kind == 2:
            return json.dumps(made, ensure_ascii=True, separators=(",", ":")).encode()
        return json.dumps(made, ensure_ascii=False, indent="\t", sort_keys=False).encode()

    def plan(self):
        """Which code cells get what, as the driver reads it."""
        return "".join(self.random.choices("kknpsber", k=self.random.randrange(1, 12)))


def placed(made, maker, value):
    """A copy of a notebook with a value at a place where anything may stand."""
    made = copy.deepcopy(made)
    places = [made["metadata"].setdefault("papermill", {})]
    places += [cell["metadata"] for cell in made["cells"]]
    places += [output["metadata"] for cell in made["cells"] for output in cell.get("outputs", []) if "metadata" in output]
    maker.random.choice(places)["duration"] = maker.random.choice([value, [1, {"a": value}], {"b": [value]}])
    return made


def refused(made, maker, which):
    """A notebook that is refused, made of one that isn't: its value or its file, and the reason."""
    made = copy.deepcopy(made)
    if which in ("float", "NaN"):
        value = maker.random.choice(FLOATS) if which == "float" else maker.random.choice([float("nan"), float("inf")])
        return placed(made, maker, value), WHOLE if which == "float" else NO_JSON
    if which == "older":
        made["nbformat_minor"] = 4
        for cell in made["cells"]:
            del cell["id"]
        return made, MINOR_4
    if which == "oldest":
        return v4.downgrade(made), "key nbformat"
    cells = made["cells"]
    at = maker.random.randrange(1, len(cells))
    if which == "id":
        cells[at]["id"] = cells[maker.random.randrange(at)]["id"]
        return made, f"repeated id at cell {at}"
    del cells[at]["id" if which == "no id" else "metadata"]
    return made, f"cell {at}"


REFUSED = ["float", "float", "float", "NaN", "older", "oldest", "id", "no id", "no metadata"]


def joined(source):
    return source if isinstance(source, str) else "".join(source)


def error(name, text):
    return {"ename": name, "evalue": text, "output_type": "error", "traceback": [f"{name}: {text}"]}


def outputs_of(letter, source, count):
    """The outputs that a letter of the plan stands for."""
    printed = {"name": "stdout", "output_type": "stream", "text": source}
    shown = {"data": {"text/plain": source}, "execution_count": count, "metadata": {}, "output_type": "execute_result"}
    raised, refusal = error("ValueError", source), error("StoreFull", "")
    return {"n": [], "p": [printed], "s": [shown], "b": [printed, shown], "e": [raised], "r": [refusal]}[letter]


def with_results(value, plan):
    """What is to stand in a notebook behind a plan, and how many code cells it changes."""
    value, changed = copy.deepcopy(value), 0
    for at, cell in enumerate(cell for cell in value["cells"] if cell["cell_type"] == "code"):
        letter = plan[at % len(plan)]
        if letter != "k":
            cell["outputs"] = outputs_of(letter, joined(cell["source"]), at + 1)
            cell["execution_count"] = None if letter == "r" else at + 1
            changed += 1
    return value, changed


def pretty(value):
    """The bytes of a notebook as Kishu writes it."""
    return (json.dumps(value, ensure_ascii=False, indent=2, sort_keys=True) + "\n").encode()
