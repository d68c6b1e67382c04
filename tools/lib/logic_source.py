"""The text of a user's file: the names that stand in it as texts, where, and what is done with each."""
import ast
from typing import Any, List, NamedTuple, Optional

from lib.shown import told
from lib.words import Ended

NOTHING, OWN = object(), ("plant", "when", "every", "after")
# What stands in a name for a part that is put in while the file runs.
OPEN = "{}"


class Use(NamedTuple):
    """A name in a text; `verb` is read, write, compare or when, `value` the constant that is written or compared."""
    name: str
    line: int
    verb: str
    value: Any = NOTHING


def tree_of(text: str, file: str) -> ast.Module:
    try:
        return ast.parse(text, file)
    except SyntaxError as fault:
        raise Ended(f"{file}:{fault.lineno or 1}: it is no Python: {fault.msg}", 2) from None
    except (ValueError, RecursionError, MemoryError) as fault:
        raise Ended(f"{file}: it is no Python: {told(str(fault)) or type(fault).__name__}", 2) from None


def constant(node: Optional[ast.AST]) -> Any:
    try:
        return ast.literal_eval(node) if node is not None else NOTHING
    except (ValueError, TypeError, SyntaxError, MemoryError, RecursionError):
        return NOTHING


def spelled(node: Optional[ast.AST]) -> str:
    """A text as far as it stands in the file."""
    if isinstance(node, ast.Constant) and isinstance(node.value, str):
        return node.value
    if isinstance(node, ast.JoinedStr):
        return "".join(spelled(it) for it in node.values)
    if isinstance(node, ast.BinOp) and isinstance(node.op, ast.Add):
        return spelled(node.left) + spelled(node.right)
    return OPEN


class Uses(ast.NodeVisitor):
    """Goes through a file. `names` are what it calls `plant`, `when` .., `modules` what it calls the module `logic`."""

    def __init__(self, tree: ast.Module):
        self.names, self.modules, self.found = {}, set(), []
        for node in ast.walk(tree):
            if isinstance(node, ast.ImportFrom) and node.module == "logic":
                for it in node.names:
                    self.names.update({own: own for own in OWN} if it.name == "*" else {it.asname or it.name: it.name})
            elif isinstance(node, ast.Import):
                self.modules |= {it.asname or it.name for it in node.names if it.name == "logic"}
        self.visit(tree)
        self.found.sort(key=lambda it: it.line)

    def is_own(self, node: ast.AST, name: str) -> bool:
        if isinstance(node, ast.Name):
            return self.names.get(node.id) == name
        is_of_module = isinstance(node, ast.Attribute) and isinstance(node.value, ast.Name)
        return is_of_module and node.attr == name and node.value.id in self.modules

    def name_in(self, node: ast.AST) -> Optional[str]:
        """The name of plant["name"]."""
        return spelled(node.slice) if isinstance(node, ast.Subscript) and self.is_own(node.value, "plant") else None

    def add(self, name, node, verb, value=NOTHING):
        if name is not None and name.replace(OPEN, ""):
            self.found.append(Use(name, node.lineno, verb, value))

    def visit_Subscript(self, node):
        if isinstance(node.ctx, ast.Load):
            self.add(self.name_in(node), node, "read")
        self.generic_visit(node)

    def visit_Assign(self, node):
        for target in node.targets:
            pairs = [(target, node.value)]
            if isinstance(target, (ast.Tuple, ast.List)):
                values = getattr(node.value, "elts", [])
                pairs = zip(target.elts, values if len(values) == len(target.elts) else [None] * len(target.elts))
            for own, value in pairs:
                self.add(self.name_in(own), own, "write", constant(value))
        self.generic_visit(node)

    def visit_AugAssign(self, node):
        self.add(self.name_in(node.target), node, "write")
        self.generic_visit(node)

    def visit_Compare(self, node):
        sides = [node.left, *node.comparators]
        for one, other, verb in zip(sides, sides[1:], node.ops):
            if isinstance(verb, (ast.Eq, ast.NotEq)):
                self.add(self.name_in(one), node, "compare", constant(other))
                self.add(self.name_in(other), node, "compare", constant(one))
            elif isinstance(verb, (ast.In, ast.NotIn)) and isinstance(constant(other), (list, tuple, set)):
                for value in constant(other):
                    self.add(self.name_in(one), node, "compare", value)
        self.generic_visit(node)

    def visit_Call(self, node):
        words = {it.arg: it.value for it in node.keywords}
        first, second = [node.args[at] if at < len(node.args) else words.get(name)
                         for at, name in ((0, "name"), (1, "value"))]
        is_method = isinstance(node.func, ast.Attribute) and node.func.attr == "set"
        if is_method and self.is_own(node.func.value, "plant"):
            self.add(spelled(first), node, "write", constant(second))
        elif self.is_own(node.func, "when"):
            self.add(spelled(first), node, "when", constant(second))
        self.generic_visit(node)


def uses_in(tree: ast.Module) -> List[Use]:
    return Uses(tree).found


def ends_of(tree: ast.Module) -> dict:
    """The last line of each function, by its first one, decorators included."""
    found = {}
    for node in ast.walk(tree):
        if isinstance(node, (ast.FunctionDef, ast.Lambda)):
            first = min([node.lineno, *(it.lineno for it in getattr(node, "decorator_list", []))])
            found[first] = max(found.get(first, 0), node.end_lineno)
    return found
