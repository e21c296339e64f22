"""The types of the package, where mypy is there."""
import os
import shutil
import subprocess
import tempfile
import unittest

from support import HERE, SOURCES

FOLLOWERS = os.path.dirname(HERE)


class Types(unittest.TestCase):
    @unittest.skipUnless(shutil.which("mypy"), "no mypy")
    def test_types(self):
        with tempfile.TemporaryDirectory() as folder:
            words = ["mypy", "--config-file", f"{FOLLOWERS}/pyproject.toml", f"--cache-dir={folder}",
                     f"{SOURCES}/changecap_followers"]
            package = os.path.join(FOLLOWERS, "..", "bindings", "python", "src")
            environment = {**os.environ, "MYPYPATH": package}
            ran = subprocess.run(words, capture_output=True, text=True, check=False, env=environment)
        self.assertEqual(ran.returncode, 0, ran.stdout + ran.stderr)


if __name__ == "__main__":
    unittest.main()
