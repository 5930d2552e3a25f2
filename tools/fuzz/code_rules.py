"""Whether a text is the code of a function: by CPython's reading of it, and by the forms that docs/LANGUAGE.md tells. Nothing of the
program is asked."""
import ast
import io
import re
import tokenize
import warnings

import python_cells

MOST = 2**127 - 1
LONGEST_NAME, DEEPEST = 255, 50
SUMS = (ast.Add, ast.Sub, ast.Mult, ast.FloorDiv, ast.Mod, ast.Pow)
SIGNS = (ast.Not, ast.UAdd, ast.USub)
# The forms that the language has, some of them in part.
FORMS = (
    ast.arguments, ast.arg, ast.keyword, ast.expr_context, ast.boolop, ast.cmpop, *SUMS, *SIGNS, ast.Return, ast.Delete, ast.Assign, ast.AugAssign,
    ast.For, ast.While, ast.If, ast.Raise, ast.Try, ast.ExceptHandler, ast.Assert, ast.ImportFrom, ast.alias, ast.Global, ast.Expr, ast.Pass,
    ast.Break, ast.Continue, ast.BoolOp, ast.BinOp, ast.UnaryOp, ast.IfExp, ast.Dict, ast.Compare, ast.Call, ast.Constant, ast.Attribute,
    ast.Subscript, ast.Slice, ast.Name, ast.List, ast.Tuple,
)


class Unsure(Exception):
    """It isn't told here whether the language reads the text so."""


def tree_of(text):
    """The tree and the code object of a text. None: CPython doesn't read it."""
    with warnings.catch_warnings():
        warnings.simplefilter("ignore")
        try:
            tree = ast.parse(text)
            return tree, compile(tree, "code", "exec")
        except (SyntaxError, ValueError) as error:
            if re.search("statically nested|__debug__|too many|too nested", str(error)):
                raise Unsure from None
            return None
        except (RecursionError, MemoryError):
            raise Unsure from None


def depth(node):
    return 1 + max(map(depth, ast.iter_child_nodes(node)), default=0)


def has_token_fault(text):
    """Whether a token is none of the language's."""
    last, opened = None, 0
    for token in tokenize.generate_tokens(io.StringIO(text).readline):
        word = token.string
        if token.type == tokenize.NAME and (not word.isascii() or len(word) > LONGEST_NAME):
            return True
        if last is not None and last.type == tokenize.NUMBER and last.end == token.start and re.match(r"[\w.]", word):
            return True
        if token.type == tokenize.STRING and not re.match("[rRuU]?['\"]", word):
            return True
        if token.type == tokenize.STRING and word[0] not in "rR" and re.search(r"(?<!\\)(\\\\)*\\N", word):
            return True
        opened += (word in "([{") - (word in ")]}") if token.type == tokenize.OP else 0
        if opened > 10:
            raise Unsure
        last = token
    return False


def is_placed(source, statement, targets):
    """Whether nothing but commas stands between the targets of `del`, and nothing behind them."""
    if (statement.end_lineno, statement.end_col_offset) != (targets[-1].end_lineno, targets[-1].end_col_offset):
        return False
    if statement.lineno != statement.end_lineno:
        raise Unsure
    line, at = source[statement.lineno - 1].encode(), statement.col_offset + len("del")
    for number, target in enumerate(targets):
        if not re.fullmatch(rb"[ \t]*" if number == 0 else rb"[ \t]*,[ \t]*", line[at : target.col_offset]):
            return False
        at = target.end_col_offset
    return True


def is_constant(value):
    if isinstance(value, str):
        return not any("\ud800" <= sign <= "\udfff" for sign in value)
    return value is None or isinstance(value, bool) or isinstance(value, int) and value <= MOST


def is_form(node, source):
    """Whether the language has the form of a node, its parts aside."""
    match node:
        case ast.arguments():
            return not (node.posonlyargs or node.kwonlyargs or node.vararg or node.kwarg)
        case ast.arg():
            return node.annotation is None
        case ast.keyword():
            return node.arg is not None
        case ast.Constant():
            return is_constant(node.value)
        case ast.For() | ast.While():
            return not node.orelse
        case ast.Raise():
            return node.cause is None
        case ast.Dict():
            return None not in node.keys
        case ast.Tuple() | ast.List():
            return bool(node.elts) or isinstance(node.ctx, ast.Load)
        case ast.AugAssign():
            return (node.lineno, node.col_offset) == (node.target.lineno, node.target.col_offset)
        case ast.Delete():
            return not any(isinstance(target, (ast.Tuple, ast.List)) for target in node.targets) and is_placed(source, node, node.targets)
        case ast.ImportFrom():
            if node.lineno != node.end_lineno:
                raise Unsure
            if b"(" in source[node.lineno - 1].encode()[node.col_offset : node.end_col_offset]:
                return False
            return (node.module, node.level, [alias.name for alias in node.names]) == ("types", 0, ["SimpleNamespace"])
    return isinstance(node, FORMS)


def is_read(node, source, caught=False):
    """Whether the language reads a node and its parts. A `raise` of nothing stands in an `except` block."""
    if isinstance(node, ast.Raise) and node.exc is None and not caught:
        return False
    if not is_form(node, source):
        return False
    for part in ast.iter_child_nodes(node):
        if isinstance(part, ast.Slice) and not isinstance(node, ast.Subscript):
            return False
        if not is_read(part, source, caught or isinstance(node, ast.ExceptHandler)):
            return False
    return True


def is_one_function(text, tree):
    """Whether a tree is that of a function alone, whose code is the text."""
    if len(tree.body) != 1 or not isinstance(tree.body[0], ast.FunctionDef):
        return False
    node = tree.body[0]
    if (node.lineno, node.col_offset) != (1, 0) or node.decorator_list or node.returns is not None:
        return False
    return python_cells.text_of_def(text.split("\n"), node) == text


def defaults_of(text):
    """The number of defaults of the function whose code a text is. None: it is no function's code. Unsure: it isn't told here."""
    if "\r" in text or "\0" in text:
        return None
    read = tree_of(text)
    if read is None:
        return None
    tree, code = read
    if re.search(r"(?m)^( +\t|\t+ )|^[ \t]*\\$", text) or "\f" in text or depth(tree) > DEEPEST:
        raise Unsure
    if not is_one_function(text, tree) or has_token_fault(text):
        return None
    source, node = text.split("\n"), tree.body[0]
    if not all(is_read(part, source) for part in ast.iter_child_nodes(node)):
        return None
    python_cells.note_functions(text, tree, code)
    return len(node.args.defaults)


def function_of(text, space):
    """What python_cells.function_of tells, of any text that is one's code or surely none."""
    if text not in python_cells.FUNCTIONS:
        try:
            if defaults_of(text) is None:
                return None
        except (Unsure, tokenize.TokenError, IndentationError):
            raise python_cells.Unlike("the code isn't known") from None
    return KNOWN(text, space)


KNOWN = python_cells.function_of
