"""The package as others get it: its examples, its types, and how it is built."""
import doctest
import importlib
import os
import re
import shutil
import subprocess
import sys
import tempfile
import unittest

from test_support import ROOT, changecap

HERE = os.path.dirname(os.path.abspath(__file__))
MODULES = "changecap._blobs", "changecap._errors", "changecap._server"
TYPED = """import changecap
from typing import Optional


def balance_of(transaction: changecap.Transaction, account: int) -> int:
    row = transaction.get("t", (account,))
    value = row.values[1] if row else 0
    return value if isinstance(value, int) else 0


with changecap.Server() as server, server.session() as session:
    version: int = server.create_table("t", [True, False])
    server.commit(("insert", "t", (1, "x")), ("update", "t", (1,), {1: 5}, changecap.CASCADE), base=version)
    server.commit(("delete", "t", changecap.RowId(1)), ("delete", "t", [b"x", None]))
    number: int = server.run(lambda transaction: balance_of(transaction, 1), tries=3)
    version = server.commit_many("t", ((it, None) for it in range(5)))
    blobs: list[bytes] = [capture.changeset(changecap.KEYS_ONES) for capture in session.captures()]
    rows: list[tuple[changecap.Value, ...]] = [row.values for row in server.scan("t")]
    for change in changecap.iterate(blobs[0]):
        text: str = change.table
    rebaser = changecap.Rebaser()
    rebaser.configure(server.apply(blobs[0], changecap.OMIT, rebase=True).buffer())
    rebased: bytes = rebaser.rebase(blobs[0], changecap.KEYS_ONES)
    buffer: bytes = changecap.rebase_buffer(rebased, lambda change: changecap.OMIT if change.indirect else None)
    try:
        server.apply(blobs[0], changecap.OMIT)
    except changecap.Conflict as conflict:
        table: Optional[str] = conflict.table
    except changecap.Refused as refused:
        place: Optional[int] = refused.at
"""
# Each is refused by the types.
WRONG = ('changecap.Server().commit(("inser", "t", (1,)))', 'changecap.invert("T")', "changecap.Server().get(5, (1,))",
         'changecap.Server().commit_many("t", [1.5])', "changecap.Server().session().nothing",
         'changecap.Server().get("t", (1.5,))', 'changecap.rebase_buffer(b"", lambda change: change.table)')


class Package(unittest.TestCase):
    def test_examples(self):
        for name in MODULES:
            found = doctest.testmod(importlib.import_module(name))
            self.assertEqual(found.failed, 0, name)
            self.assertGreater(found.attempted, 10, name)

    def test_each_has_an_example(self):
        for name in changecap.__all__:
            it = getattr(changecap, name)
            if getattr(it, "__module__", "").startswith("changecap"):
                self.assertIn(">>>", it.__doc__, name)

    def test_names(self):
        self.assertEqual(len(set(changecap.__all__)), len(changecap.__all__))
        for name in changecap.__all__:
            self.assertTrue(hasattr(changecap, name), name)
        with open(os.path.join(ROOT, "include", "changecap.h"), encoding="utf-8") as file:
            version = re.search(r"^#define CHANGECAP_VERSION \"(.*)\"", file.read(), re.M)[1]
        self.assertEqual(changecap.__version__, version)

    def test_types(self):
        if not shutil.which("mypy"):
            self.skipTest("no mypy")
        with tempfile.TemporaryDirectory() as folder:
            def checked(text, *words):
                with open(f"{folder}/typed.py", "w", encoding="utf-8") as file:
                    file.write(text)
                environment = {**os.environ, "MYPYPATH": f"{HERE}/src"}
                return subprocess.run(["mypy", "--strict", f"--cache-dir={folder}/cache", f"{folder}/typed.py", *words],
                                      capture_output=True, text=True, check=False, env=environment)

            ran = checked(TYPED, f"{HERE}/src/changecap")
            self.assertEqual(ran.returncode, 0, ran.stdout)
            for wrong in WRONG:
                self.assertEqual(checked(f"import changecap\n{wrong}\n").returncode, 1, wrong)

    def test_a_wheel(self):
        folder = os.path.dirname(os.path.dirname(os.path.dirname(os.path.abspath(changecap.__file__))))
        has_pip = subprocess.run([sys.executable, "-m", "pip", "--version"], capture_output=True, check=False)
        if has_pip.returncode or not os.path.exists(f"{folder}/libchangecap.a"):
            self.skipTest("no pip, or no libchangecap.a beside the package")
        with tempfile.TemporaryDirectory() as to:
            words = "install", "--quiet", "--no-index", "--no-deps", "--target", to, f"{ROOT}/bindings/python"
            subprocess.run([sys.executable, "-m", "pip", *words], check=True, capture_output=True,
                           env={**os.environ, "CHANGECAP_LIB": folder})
            words = "import changecap; print(changecap.Server().call('create t k'))"
            ran = subprocess.run([sys.executable, "-c", words], capture_output=True, text=True, check=False, cwd=to,
                                 env={**os.environ, "PYTHONPATH": to})
            self.assertEqual((ran.stdout, ran.stderr), ("ok version 1\n", ""))
            self.assertEqual(sorted(it for it in os.listdir(f"{to}/changecap") if it.startswith("py")), ["py.typed"])

    def test_a_package_that_is_not_built(self):
        with tempfile.TemporaryDirectory() as folder:
            shutil.copytree(f"{HERE}/src/changecap", f"{folder}/changecap", ignore=shutil.ignore_patterns("*.so"))
            ran = subprocess.run([sys.executable, "-B", "-c", "import changecap"], capture_output=True, text=True,
                                 check=False, cwd=folder, env={**os.environ, "PYTHONPATH": folder})
            self.assertIn("ImportError: changecap._changecap is not built: `make python`", ran.stderr)
            ran = subprocess.run([f"{ROOT}/bindings/package", folder], capture_output=True, text=True, check=False)
            self.assertEqual(ran.returncode, 77)
            self.assertIn("`make lib` makes it", ran.stderr)


if __name__ == "__main__":
    unittest.main()
