"""Changes of a program's source in one place at a time, each as a module of its own: a limit that is one off, `<` for `<=`, `and` for
`or`, `+` for `-`, `min` for `max`, a condition left out."""
import ast
import copy
import functools
import pathlib
import signal
import types
from collections import namedtuple
from collections.abc import Callable, Collection, Iterator

# A change: the function or the name in which it is, the text as it is, and as it is changed.
Change = namedtuple("Change", "function old new")
Changes = Iterator[tuple[Change, Callable[[], types.ModuleType]]]
Top = ast.FunctionDef | ast.ClassDef | ast.Assign

OTHER_COMPARISON: dict[type[ast.cmpop], type[ast.cmpop]] = {
    ast.Lt: ast.LtE, ast.LtE: ast.Lt, ast.Gt: ast.GtE, ast.GtE: ast.Gt,
    ast.Eq: ast.NotEq, ast.NotEq: ast.Eq, ast.Is: ast.IsNot, ast.IsNot: ast.Is,
}
OTHER_MEMBERSHIP: dict[type[ast.cmpop], type[ast.cmpop]] = {ast.In: ast.NotIn, ast.NotIn: ast.In}
OTHER_NAME = {"min": "max", "max": "min", "any": "all", "all": "any"}


def other_comparisons(node: ast.Compare, others: dict[type[ast.cmpop], type[ast.cmpop]]) -> Iterator[ast.AST]:
    """The comparison with another operator in one place."""
    for place, operator in enumerate(node.ops):
        if type(operator) in others:
            changed = copy.deepcopy(node)
            changed.ops[place] = others[type(operator)]()
            yield changed


def other_joins(node: ast.BoolOp) -> Iterator[ast.AST]:
    """`and` for `or`, and each of the conditions left out."""
    yield ast.BoolOp(ast.Or() if isinstance(node.op, ast.And) else ast.And(), node.values)
    for place in range(len(node.values)):
        rest = node.values[:place] + node.values[place + 1 :]
        yield ast.BoolOp(node.op, rest) if len(rest) > 1 else rest[0]


def changes_of(node: ast.AST) -> Iterator[ast.AST]:
    """The nodes that may replace one."""
    if isinstance(node, ast.Compare):
        yield from other_comparisons(node, OTHER_COMPARISON)
    if isinstance(node, ast.BoolOp):
        yield from other_joins(node)
    if isinstance(node, ast.BinOp) and isinstance(node.op, (ast.Add, ast.Sub)):
        yield ast.BinOp(node.left, ast.Sub() if isinstance(node.op, ast.Add) else ast.Add(), node.right)
    if isinstance(node, ast.Constant) and type(node.value) is int:
        yield ast.Constant(node.value + 1)
        yield ast.Constant(node.value - 1)
    if isinstance(node, ast.Call) and isinstance(node.func, ast.Name) and node.func.id in OTHER_NAME:
        yield ast.Call(ast.Name(OTHER_NAME[node.func.id], ast.Load()), node.args, node.keywords)
    if isinstance(node, ast.UnaryOp) and isinstance(node.op, ast.Not):
        yield node.operand
    if isinstance(node, ast.comprehension):
        for place in range(len(node.ifs)):
            yield ast.comprehension(node.target, node.iter, node.ifs[:place] + node.ifs[place + 1 :], node.is_async)


def all_changes_of(node: ast.AST) -> Iterator[ast.AST]:
    """The same, and the test of an `if` that always holds, or never, and `in` for `not in`."""
    yield from changes_of(node)
    if isinstance(node, ast.Compare):
        yield from other_comparisons(node, OTHER_MEMBERSHIP)
    if isinstance(node, ast.IfExp):
        yield node.body
        yield node.orelse
    if isinstance(node, ast.If):
        for value in (True, False):
            yield ast.If(ast.Constant(value), node.body, node.orelse)


class Replacing(ast.NodeTransformer):
    """Puts another node in the place of one."""

    def __init__(self, old: ast.AST, new: ast.AST) -> None:
        self.old, self.new = old, new

    def visit(self, node: ast.AST) -> ast.AST:
        """The other node, in that place."""
        return self.new if node is self.old else self.generic_visit(node)


def functions_in(top: ast.AST) -> Iterator[tuple[str, ast.AST]]:
    """The functions of a statement, with their names: of a class its methods; an assignment is one by itself."""
    if isinstance(top, ast.FunctionDef):
        yield top.name, top
    elif isinstance(top, ast.ClassDef):
        for inner in top.body:
            if isinstance(inner, ast.FunctionDef):
                yield f"{top.name}.{inner.name}", inner
    elif isinstance(top, ast.Assign):
        yield ast.unparse(top.targets[0]), top


def places_of(top: ast.AST) -> list[tuple[str, ast.AST, ast.AST]]:
    """Each node of a statement, with the function's name and what shows its place: of a number it is the node that it stands in, and of an
    `if` its test."""
    found = []
    for name, function in functions_in(top):
        for around in ast.walk(function):
            for node in ast.iter_child_nodes(around):
                found.append((name, around if isinstance(node, ast.Constant) else node, node))
    return found


def text_of(node: ast.AST) -> str:
    """What shows a node: of an `if` only its test."""
    return f"if {ast.unparse(node.test)}" if isinstance(node, ast.If) else ast.unparse(node).strip()


@functools.cache
def code_of(path: str) -> types.CodeType:
    """The code of a source, as it is."""
    return compile(pathlib.Path(path).read_text(encoding="utf-8"), path, "exec")


def module_of(path: str, tree: ast.Module, place: int, top: ast.stmt) -> types.ModuleType:
    """The module of a source with another statement at one place. A function or a class can be put in later; what is assigned can't."""
    module = types.ModuleType("changed")
    if isinstance(top, ast.Assign):
        whole = ast.Module([*tree.body[:place], top, *tree.body[place + 1 :]], [])
        exec(compile(ast.fix_missing_locations(whole), "changed", "exec"), module.__dict__)
        return module
    exec(code_of(path), module.__dict__)
    exec(compile(ast.fix_missing_locations(ast.Module([top], [])), "changed", "exec"), module.__dict__)
    return module


def changed_places(top: ast.stmt, kinds: Callable[[ast.AST], Iterator[ast.AST]],
                   apart: Collection[str]) -> Iterator[tuple[Change, ast.stmt]]:
    """Each change of a statement, and the statement as it is then."""
    for place, (name, told, node) in enumerate(places_of(top)):
        if name in apart:
            continue
        for number, _ in enumerate(kinds(node)):
            copied = copy.deepcopy(top)
            _, around, old = places_of(copied)[place]
            new = list(kinds(old))[number]
            changed = Replacing(old, new).visit(copied)
            yield Change(name, text_of(told), text_of(new if around is old else around)), changed


def changed_modules(
    module: types.ModuleType, apart: Collection[str] = (), kinds: Callable[[ast.AST], Iterator[ast.AST]] = all_changes_of,
    tops: tuple[type[ast.stmt], ...] = (ast.FunctionDef, ast.ClassDef, ast.Assign),
) -> Changes:
    """Each change of a module's source but for that of some functions, and what makes the module that is changed so."""
    path = str(module.__file__)
    tree = ast.parse(pathlib.Path(path).read_text(encoding="utf-8"))
    for place, top in enumerate(tree.body):
        if isinstance(top, tops):
            for change, changed in changed_places(top, kinds, apart):
                yield change, functools.partial(module_of, path, tree, place, changed)


def name_of(change: Change) -> str:
    """A change in a line."""
    return f"{change.function}: {change.new!r} in place of {change.old!r}"


# Readings that may not end


class TooLong(Exception):
    """A reading has taken too long."""


def give_up(number: int, frame: object) -> None:
    """Ends a reading that takes too long."""
    raise TooLong


def within(seconds: float, call: Callable[[], object]) -> object:
    """What a call gives within some seconds of processor time; whatever it raises is raised, TooLong if it takes longer."""
    signal.signal(signal.SIGVTALRM, give_up)
    signal.setitimer(signal.ITIMER_VIRTUAL, seconds)
    try:
        return call()
    finally:
        signal.setitimer(signal.ITIMER_VIRTUAL, 0)


# Changes that are written down as texts


def source_with(module: types.ModuleType, pairs: Collection[tuple[str, str]]) -> str:
    """The source of a module with other texts in the place of some, each of which it has once."""
    source = pathlib.Path(str(module.__file__)).read_text(encoding="utf-8")
    for old, new in pairs:
        if source.count(old) != 1:
            raise ValueError(f"{module.__name__} has {source.count(old)} times {old!r}")
        source = source.replace(old, new)
    return source


def module_with(module: types.ModuleType, pairs: Collection[tuple[str, str]]) -> types.ModuleType:
    """A module like another one, but for some texts of its source."""
    changed = types.ModuleType("changed")
    exec(compile(source_with(module, pairs), "changed", "exec"), changed.__dict__)
    return changed


def module_with_all(module: types.ModuleType, changes: Collection[Collection[tuple[str, str]]]) -> types.ModuleType:
    """The same, but for the texts of several changes. Where one changes what another one needs, it is a ValueError."""
    return module_with(module, [pair for pairs in changes for pair in pairs])


def plant(module: types.ModuleType, pairs: Collection[tuple[str, str]]) -> None:
    """Changes a module itself: each function, class or name whose source is another one."""
    before = {ast.dump(top) for top in ast.parse(source_with(module, [])).body}
    changed = [top for top in ast.parse(source_with(module, pairs)).body if ast.dump(top) not in before]
    exec(compile(ast.Module(changed, []), "planted", "exec"), module.__dict__)
