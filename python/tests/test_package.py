"""The package: its names, its documentation, its hints, and what it says where a part of it is missing."""

import ast
import inspect
import os
import re
import subprocess
import sys
import tarfile
import tempfile
import unittest
import zipfile
from pathlib import Path

import roskvidh
from roskvidh import Cedar, Scanner, Store, _core
from roskvidh.__main__ import check_examples

HERE = Path(__file__).resolve().parent.parent


class Package(unittest.TestCase):
    def test_names(self):
        self.assertTrue(all(hasattr(roskvidh, name) for name in roskvidh.__all__))
        self.assertEqual(roskvidh.__all__, sorted(roskvidh.__all__, key=lambda name: (not name.isupper(), name)))
        self.assertRegex(roskvidh.__version__, r"^\d+\.\d+\.\d+$")

    def test_each_call_is_documented(self):
        for name in [name for name in dir(Cedar) if not name.startswith("_")]:
            call = getattr(Cedar, name)
            self.assertTrue(call.__doc__, name)
            if callable(call):
                self.assertIn(">>>", call.__doc__, name)
        self.assertIn(">>>", Scanner.find.__doc__)
        self.assertTrue(all(getattr(Store, name).__doc__ for name in dir(Store) if not name.startswith("_") and name != "path"))
        self.assertGreater(check_examples(), 40)

    def test_hints(self):
        """The stub has the compiled part's names, and no others; each function of Python has hints."""
        stub = ast.parse((HERE / "roskvidh" / "_core.pyi").read_text())
        for kind in (_core.Core, Scanner):
            told = next(node for node in stub.body if isinstance(node, ast.ClassDef) and node.name == kind.__name__)
            hinted = {node.name for node in told.body if isinstance(node, ast.FunctionDef)} - {"__new__"}
            self.assertEqual(hinted, set(vars(kind)) - {"__new__", "__doc__", "__module__", "__repr__", "__class_getitem__"})
        for kind in (Cedar, Store):
            for name, call in inspect.getmembers(kind, inspect.isfunction):
                if name != "__init__":
                    self.assertIn("return", call.__annotations__, name)
        self.assertTrue((HERE / "roskvidh" / "py.typed").is_file())

    def test_the_readme(self):
        """Runs its Python, and compares each line with the value that stands behind it as a comment."""
        blocks = re.findall(r"```python\n(.*?)```", (HERE / "README.md").read_text(), re.S)
        compared, folder = 0, os.getcwd()
        with tempfile.TemporaryDirectory() as empty:
            os.chdir(empty)
            self.addCleanup(os.chdir, folder)
            for block in blocks:
                names = {"Cedar": Cedar, "Scanner": Scanner, "Store": Store}
                tree = ast.parse(block)
                for statement in tree.body:
                    code = ast.get_source_segment(block, statement)
                    comment = block.splitlines()[statement.end_lineno - 1].partition("    # ")[2]
                    if isinstance(statement, ast.Expr) and comment:
                        self.assertEqual(repr(eval(code, names)), comment)
                        compared += 1
                    else:
                        exec(code, names)
            os.chdir(folder)
        self.assertGreaterEqual(compared, 8)

    def test_without_the_compiled_part(self):
        with tempfile.TemporaryDirectory() as folder:
            package = Path(folder) / "roskvidh"
            package.mkdir()
            for path in (HERE / "roskvidh").glob("*.py"):
                (package / path.name).write_bytes(path.read_bytes())
            run = subprocess.run([sys.executable, "-c", "import roskvidh"], cwd=folder, env={"PYTHONPATH": folder}, stderr=subprocess.PIPE, text=True)
        self.assertIn("ImportError: the compiled part of roskvidh is missing", run.stderr)
        self.assertIn("Install the package by pip, into an environment", run.stderr)

    def build(self, folder, **variables):
        """Compiles the extension into a folder, with these variables of the environment and none of the others that say where the library is."""
        environment = {name: value for name, value in os.environ.items() if name not in ("CEDAR_LIBRARY_FOLDER", "ROSKVIDH_PREFIX", "LD_PRELOAD")}
        command = [sys.executable, str(HERE / "backend" / "roskvidh_build.py"), str(Path(folder) / "x.so")]
        return subprocess.run(command, env={**environment, **variables}, stderr=subprocess.PIPE, text=True)

    def test_a_build_without_the_library(self):
        for variable, place, name in [("CEDAR_LIBRARY_FOLDER", "/nowhere", "libroskvidh.a"), ("ROSKVIDH_PREFIX", "/nowhere/lib", "libroskvidh.a")]:
            run = self.build("/nowhere", **{variable: "/nowhere"})
            self.assertEqual((run.returncode, f"{place} has no {name}: run ./build-c" in run.stderr), (1, True))

    def test_a_build_over_another_version(self):
        with tempfile.TemporaryDirectory() as folder:
            (Path(folder) / "libroskvidh.a").touch()
            (Path(folder) / "cedar.h").write_text('#define CEDAR_VERSION "7.8.9"\n')
            run = self.build(folder, CEDAR_LIBRARY_FOLDER=folder)
        self.assertEqual((run.returncode, "cedar.h is of version 7.8.9, and the package of " in run.stderr), (1, True))

    @unittest.skipUnless(os.environ.get("CEDAR_LIBRARY_FOLDER"), "the library's folder isn't named")
    def test_the_sources_build_over_a_prefix(self):
        """What was packed is unpacked elsewhere, and makes a wheel over an installed library: its name says what it needs."""
        library = Path(os.environ["CEDAR_LIBRARY_FOLDER"])
        with tempfile.TemporaryDirectory() as name:
            folder = Path(name)
            for source, target in [("cedar.h", "include/roskvidh/cedar.h"), ("libroskvidh.a", "lib/libroskvidh.a")]:
                (folder / target).parent.mkdir(parents=True)
                (folder / target).write_bytes((library / source).read_bytes())
            sys.path.insert(0, str(HERE / "backend"))
            self.addCleanup(sys.path.remove, str(HERE / "backend"))
            import roskvidh_build

            with tarfile.open(folder / roskvidh_build.build_sdist(name)) as archive:
                archive.extractall(name, **({"filter": "data"} if hasattr(tarfile, "data_filter") else {}))
            unpacked = next(path for path in folder.iterdir() if path.is_dir() and path.name.startswith("roskvidh-"))
            run = "import sys, roskvidh_build; print(roskvidh_build.build_wheel(sys.argv[1]))"
            environment = {"PYTHONPATH": str(unpacked / "backend"), "ROSKVIDH_PREFIX": name, "PATH": os.environ["PATH"]}
            made = subprocess.run([sys.executable, "-c", run, name], env=environment, stdout=subprocess.PIPE, text=True, check=True).stdout.strip()
            self.assertRegex(made, r"^roskvidh-\d+\.\d+\.\d+-cp38-abi3-(manylinux_\d+_\d+|linux)_\w+\.whl$")
            with zipfile.ZipFile(folder / made) as wheel:
                packed = {path for path in wheel.namelist() if path.startswith("roskvidh/")}
                metadata = wheel.read(next(path for path in wheel.namelist() if path.endswith("/METADATA"))).decode()
            kept = {path.name for path in (HERE / "roskvidh").iterdir() if path.suffix in (".py", ".pyi") or path.name == "py.typed"}
            self.assertEqual(packed, {f"roskvidh/{name}" for name in kept | {"_core.abi3.so"}})
            self.assertIn("\nRequires-Python: >=3.8\n", metadata)


if __name__ == "__main__":
    unittest.main()
