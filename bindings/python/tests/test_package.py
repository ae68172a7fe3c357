"""The package as it is installed: its examples, its version, and stubs that name what there is."""

import ast
import doctest
import importlib.metadata
import importlib.resources
import inspect
import unittest

import vokujin

PLACE = importlib.resources.files(vokujin)
# The kinds of maps, and what stubs say of both that may be changed, or of both that are frozen.
KINDS = {vokujin.Map: "_Changed", vokujin.StrMap: "_Changed", vokujin.FrozenMap: "_Frozen", vokujin.FrozenStrMap: "_Frozen"}
# Of calls with two underscores, those that the stubs name.
READ = {"__len__", "__contains__", "__getitem__", "__iter__", "__reversed__", "__eq__"}
OWN = {
    "_Changed": READ | {"__init__", "__setitem__", "__delitem__", "__or__", "__ror__", "__ior__"},
    "_Frozen": READ | {"__new__", "__copy__", "__deepcopy__"},
}


def stubs(*names):
    """Each call that the stubs of these classes name, with the names of its parameters."""
    for group in ast.parse((PLACE / "__init__.pyi").read_text()).body:
        if isinstance(group, ast.ClassDef) and group.name in names:
            for call in group.body:
                if isinstance(call, ast.FunctionDef):
                    yield call.name, [it.arg for it in (*call.args.posonlyargs, *call.args.args) if it.arg not in ("self", "cls")]


class Package(unittest.TestCase):
    def test_version(self):
        self.assertEqual(importlib.metadata.version("vokujin"), vokujin.__version__)

    def test_has_types(self):
        self.assertTrue((PLACE / "py.typed").is_file())

    def test_stubs_name_each_call(self):
        for kind, group in KINDS.items():
            named = dict(stubs("_Ordered", group, kind.__name__))
            self.assertEqual({it for it in dir(kind) if not it.startswith("_")} | OWN[group], set(named))
            for name in set(named) - OWN[group] - {"pop"}:  # its default has no text
                parameters = [it.name for it in inspect.signature(getattr(kind, name)).parameters.values() if it.kind != it.VAR_KEYWORD]
                self.assertEqual([it for it in parameters if it != "self"], named[name], name)

    def test_each_call_has_a_text(self):
        for kind in KINDS:
            for name, call in inspect.getmembers(kind, callable):
                self.assertTrue(name.startswith("_") or call.__doc__, name)


def load_tests(loader, tests, pattern):
    tests.addTests(doctest.DocTestSuite(vokujin))
    return tests


if __name__ == "__main__":
    unittest.main()
