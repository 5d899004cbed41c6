"""What the package shows of itself: documented, typed, and without dependencies."""
import ast
import inspect
import sys
import unittest
from pathlib import Path

import jschema

PACKAGE = Path(jschema.__file__).parent


def modules():
    """Each module of the package with its code."""
    for path in sorted(PACKAGE.rglob("*.py")):
        yield path.relative_to(PACKAGE).as_posix(), ast.parse(path.read_text("utf-8"))


def functions(tree):
    """Each function of a module, methods included, but not those within functions."""
    for node in tree.body:
        if isinstance(node, ast.ClassDef):
            yield from (it for it in node.body if isinstance(it, ast.FunctionDef))
        elif isinstance(node, ast.FunctionDef):
            yield node


def untyped(function):
    """What has no type: parameters, or the result."""
    given = function.args
    for it in (*given.posonlyargs, *given.args, *given.kwonlyargs, given.vararg, given.kwarg):
        if it is not None and it.annotation is None and it.arg not in ("self", "cls"):
            yield it.arg
    if function.returns is None:
        yield "its result"


def undocumented(found):
    """The public names of a class, or the class or function itself, that nothing describes. What an engine does is
    described at `Engine`."""
    members = vars(found).items() if inspect.isclass(found) else ()
    for name, it in (("", found), *members):
        if not name.startswith("_") and (callable(it) or isinstance(it, property)):
            if not inspect.getdoc(it) and not hasattr(jschema.Engine, name or "?"):
                yield name


class Public(unittest.TestCase):
    def test_documents(self):
        for name, tree in modules():
            with self.subTest(name):
                self.assertTrue(ast.get_docstring(tree))
        for name in jschema.__all__:
            found = getattr(jschema, name)
            if inspect.isclass(found) or inspect.isfunction(found):
                with self.subTest(name):
                    self.assertEqual(list(undocumented(found)), [])

    def test_types(self):
        self.assertTrue((PACKAGE / "py.typed").is_file())
        for name, tree in modules():
            with self.subTest(name):
                self.assertEqual([(it.name, *untyped(it)) for it in functions(tree) if list(untyped(it))], [])

    def test_no_dependencies(self):
        for name, tree in modules():
            with self.subTest(name):
                named = [it.name for node in ast.walk(tree) if isinstance(node, ast.Import) for it in node.names]
                named += [node.module for node in ast.walk(tree) if isinstance(node, ast.ImportFrom) and not node.level]
                self.assertEqual({it.partition(".")[0] for it in named} - sys.stdlib_module_names, set())
