"""The package as a whole: what it has from include/judge.h, how it finds the library, its examples and its form."""

from __future__ import annotations

import ast
import ctypes
import doctest
import importlib
import inspect
import os
import pkgutil
import re
import shutil
import subprocess
import sys
import tempfile
import unittest
from pathlib import Path
from typing import Optional

import judge
from judge import _library

from .stored import ROOT

HEADER = (ROOT / "include" / "judge.h").read_text()
PACKAGE = Path(judge.__file__).resolve().parent
LIBRARY = ROOT / "target" / "shared" / _library.SONAME
MODULES = [importlib.import_module(f"judge.{module.name}") for module in pkgutil.iter_modules([str(PACKAGE)])]


def load_tests(loader: unittest.TestLoader, tests: unittest.TestSuite, pattern: Optional[str]) -> unittest.TestSuite:
    """The examples of the docstrings, and those of docs/DESK.md, which are about files of examples/."""
    for module in [judge, *MODULES]:
        tests.addTests(doctest.DocTestSuite(module))
    tests.addTests(
        doctest.DocFileSuite(
            str(ROOT / "docs" / "DESK.md"),
            module_relative=False,
            setUp=lambda _: os.chdir(ROOT / "examples"),
            tearDown=lambda _: os.chdir(ROOT / "python"),
        )
    )
    return tests


class Header(unittest.TestCase):
    """What include/judge.h says, too."""

    def test_constants(self) -> None:
        constants = dict(re.findall(r"\bJUDGE_(\w+) = (\d+)", HEADER))
        own = {**vars(judge), **{kind.name: kind for kind in judge.Kind}}
        own.update({f"EDITION_{edition.value}": edition for edition in judge.Edition})
        own.update(
            NEITHER=judge.Relation.NEITHER,
            NEAREST_BROADER=judge.Relation.NEAREST_BROADER,
            EQUAL_NAMES=judge.Relation.EQUAL,
        )
        self.assertGreaterEqual(len(constants), 23)
        self.assertEqual({name: int(own[name]) for name in constants}, {name: int(n) for name, n in constants.items()})

    def test_sentences(self) -> None:
        table = HEADER[HEADER.index("sentences[] = {") : HEADER.index("};", HEADER.index("sentences[] = {"))]
        sentences = re.findall(r'"(.*)",\n', table)
        self.assertEqual([rule.sentence for rule in judge.Rule], sentences[1:])

    def test_calls(self) -> None:
        """What ctypes knows of the calls; tests/boundary.sh compares the names of the parameters, too."""
        types = {
            "const uint8_t *": ctypes.c_char_p,
            "uint8_t *": ctypes.c_void_p,
            "size_t ": ctypes.c_size_t,
            "uint32_t ": ctypes.c_uint32,
            "uint16_t ": ctypes.c_uint16,
            "uint8_t ": ctypes.c_uint8,
        }
        declared = re.findall(r"^uint64_t (judge_\w+)\(([^)]*)\);", HEADER, re.MULTILINE)
        self.assertEqual([name for name, _ in declared], list(_library._CALLS))
        for name, parameters in declared:
            expected = [types[re.sub(r"\w+$", "", parameter.strip())] for parameter in parameters.split(",")]
            for library in (_library.FREE, _library.HELD):
                call = getattr(library, name)
                self.assertEqual((list(call.argtypes), call.restype), (expected, ctypes.c_uint64), name)

    def test_version(self) -> None:
        workspace = re.search(r'^version = "(.*)"$', (ROOT / "Cargo.toml").read_text(), re.MULTILINE)
        self.assertEqual(workspace and workspace.group(1), judge.VERSION)
        said = re.search(r'#define JUDGE_VERSION "(.*)"', HEADER)
        self.assertTrue(said is None or said.group(1) == judge.VERSION)


class Finding(unittest.TestCase):
    """Where the library is looked for."""

    def run_python(self, library: Optional[str], path: Path) -> "subprocess.CompletedProcess[str]":
        """Imports the package in a new process, and says which library it has."""
        chosen = {} if library is None else {"JUDGE_LIBRARY": library}
        environment = {name: text for name, text in os.environ.items() if name != "JUDGE_LIBRARY"}
        return subprocess.run(
            [sys.executable, "-B", "-c", "import judge._library as found; print(found.FREE._name)"],
            env={**environment, **chosen, "PYTHONPATH": str(path)},
            cwd=path,
            text=True,
            stdout=subprocess.PIPE,
            stderr=subprocess.PIPE,
            check=False,
        )

    def installed(self, place: str) -> Path:
        """A copy of the package outside the checkout."""
        shutil.copytree(PACKAGE, Path(place) / "judge", ignore=shutil.ignore_patterns("__pycache__"))
        return Path(place)

    def test_the_variable_comes_first(self) -> None:
        with tempfile.TemporaryDirectory() as place:
            copy = Path(place) / "other.so"
            shutil.copy(LIBRARY, copy)
            self.assertEqual(self.run_python(str(copy), PACKAGE.parent).stdout, f"{copy}\n")
            # Where it names nothing, no other is taken in its place.
            copy.unlink()
            failed = self.run_python(str(copy), PACKAGE.parent)
            self.assertIn("ImportError", failed.stderr)
            self.assertIn(str(copy), failed.stderr)
            self.assertEqual(failed.returncode, 1)

    def test_the_checkout(self) -> None:
        self.assertEqual(self.run_python(None, PACKAGE.parent).stdout, f"{LIBRARY}\n")

    def test_beside_the_package(self) -> None:
        with tempfile.TemporaryDirectory() as place:
            path = self.installed(place)
            shutil.copy(LIBRARY, path / "judge" / _library.SONAME)
            self.assertEqual(self.run_python(None, path).stdout, f"{path.resolve() / 'judge' / _library.SONAME}\n")

    def test_the_lib_below_which_it_is_installed(self) -> None:
        with tempfile.TemporaryDirectory() as place:
            path = self.installed(f"{place}/lib/python3.9/site-packages")
            library = Path(place).resolve() / "lib" / _library.SONAME
            shutil.copy(LIBRARY, library)
            self.assertEqual(self.run_python(None, path).stdout, f"{library}\n")
            self.assertEqual(_library.candidates(library.parent / "python3.9" / "other" / "judge", ""), [_library.SONAME])

    def test_where_the_system_looks(self) -> None:
        self.assertEqual(_library.candidates(Path("/nowhere/else/judge"), ""), [_library.SONAME])

    def test_another_library(self) -> None:
        with self.assertRaisesRegex(ImportError, "judge_check_vocabulary"):
            _library.load(["libc.so.6"])

    def test_the_first_that_can_be_loaded(self) -> None:
        free, held = _library.load(["/nowhere/libjudge.so.1", str(LIBRARY)])
        self.assertEqual((free._name, held._name), (str(LIBRARY), str(LIBRARY)))


class Form(unittest.TestCase):
    """The sources."""

    def test_everything_public_is_listed_and_documented(self) -> None:
        public = {name for name in vars(judge) if not name.startswith("_") and name != "annotations"}
        self.assertEqual(public, set(judge.__all__))
        for name in judge.__all__:
            item = getattr(judge, name)
            if inspect.isclass(item) or inspect.isfunction(item):
                self.assertTrue(inspect.getdoc(item), name)

    def test_every_function_has_types_and_the_oldest_python_reads_it(self) -> None:
        functions = 0
        for path in PACKAGE.glob("*.py"):
            tree = ast.parse(path.read_text(), feature_version=(3, 9))
            for node in ast.walk(tree):
                if not isinstance(node, ast.FunctionDef):
                    continue
                functions += 1
                arguments = [a for a in node.args.args + node.args.kwonlyargs if a.arg not in ("self", "cls")]
                typed = node.returns is not None and all(argument.annotation for argument in arguments)
                self.assertTrue(typed, f"{path.name}: {node.name}")
        self.assertGreater(functions, 40)

    def test_the_types_are_marked(self) -> None:
        self.assertTrue((PACKAGE / "py.typed").is_file())


if __name__ == "__main__":
    unittest.main()
