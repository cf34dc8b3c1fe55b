"""The library that is looked for, and the wheel."""

from __future__ import annotations

import importlib.util
import os
import pathlib
import shutil
import subprocess
import sys
import tempfile
import unittest
import zipfile
from typing import Any, Dict

import kormaglen as K
from kormaglen._library import PLACE
from tests.common import PACKAGE


def imports(**environment: str) -> "subprocess.CompletedProcess[str]":
    """Imports the package in a process of its own, with another environment."""
    kept = {name: value for name, value in os.environ.items() if name != "KORMAGLEN_SO"}
    given: Dict[str, str] = {**kept, "PYTHONPATH": PACKAGE, **environment}
    code = "import kormaglen; print(kormaglen.library_version())"
    # (a program of -c finds modules where it runs, so it doesn't run in the package's folder)
    return subprocess.run(
        [sys.executable, "-c", code], cwd="/", env=given, capture_output=True, text=True, check=False
    )


class Loading(unittest.TestCase):
    """Where the library comes from."""

    def last_line(self, done: Any) -> str:
        self.assertEqual(done.returncode, 1)
        return str(done.stderr.strip().split("\n")[-1])

    def test_a_library_that_is_missing(self) -> None:
        said = self.last_line(imports(KORMAGLEN_SO="/nowhere/libkormaglen.so"))
        self.assertTrue(
            said.startswith(
                "ImportError: the shared library libkormaglen.so is not found: build it with `make`"
            ),
            said,
        )
        self.assertIn("/nowhere/libkormaglen.so", said)

    def test_a_library_that_lacks_calls(self) -> None:
        said = self.last_line(imports(KORMAGLEN_SO="libc.so.6"))
        self.assertEqual(
            said,
            "ImportError: the library libc.so.6 is too old for this package: it lacks kormaglen_version",
        )

    def test_the_system_s_library(self) -> None:
        with tempfile.TemporaryDirectory() as folder:
            shutil.copytree(os.path.join(PACKAGE, "kormaglen"), os.path.join(folder, "kormaglen"))
            shutil.copyfile(PLACE, os.path.join(folder, "libkormaglen.so.0"))
            done = imports(PYTHONPATH=folder, LD_LIBRARY_PATH=folder)
            self.assertEqual((done.returncode, done.stdout.strip()), (0, K.library_version()), done.stderr)

    def test_beside_the_modules(self) -> None:
        with tempfile.TemporaryDirectory() as folder:
            shutil.copytree(os.path.join(PACKAGE, "kormaglen"), os.path.join(folder, "kormaglen"))
            shutil.copyfile(PLACE, os.path.join(folder, "kormaglen", "libkormaglen.so"))
            self.assertEqual(imports(PYTHONPATH=folder).returncode, 0)

    def test_where_make_puts_it(self) -> None:
        with tempfile.TemporaryDirectory() as folder:
            shutil.copytree(os.path.join(PACKAGE, "kormaglen"), os.path.join(folder, "python", "kormaglen"))
            os.mkdir(os.path.join(folder, "out"))
            shutil.copyfile(PLACE, os.path.join(folder, "out", "libkormaglen.so"))
            self.assertEqual(imports(PYTHONPATH=os.path.join(folder, "python")).returncode, 0)


@unittest.skipUnless(
    importlib.util.find_spec("setuptools") and importlib.util.find_spec("wheel"),
    "the wheel wants setuptools and wheel",
)
class Wheels(unittest.TestCase):
    """What setup.py builds."""

    def build(self, folder: str, library: str) -> "subprocess.CompletedProcess[str]":
        source = os.path.join(folder, "source")
        kept = shutil.ignore_patterns(
            "__pycache__", "build", "*.egg-info", "dist", "libkormaglen.so", ".mypy_cache"
        )
        shutil.copytree(PACKAGE, source, ignore=kept)
        command = [sys.executable, "setup.py", "-q", "bdist_wheel", "-d", folder]
        return subprocess.run(
            command,
            cwd=source,
            env={**os.environ, "KORMAGLEN_SO": library},
            capture_output=True,
            text=True,
            check=False,
        )

    def test_the_wheel(self) -> None:
        with tempfile.TemporaryDirectory() as folder:
            done = self.build(folder, os.path.abspath(PLACE) if os.path.exists(PLACE) else PLACE)
            self.assertEqual(done.returncode, 0, done.stderr)
            (wheel,) = pathlib.Path(folder).glob("*.whl")
            self.assertRegex(wheel.name, r"^kormaglen-0\.1\.0-py3-none-linux_\w+\.whl$")
            with zipfile.ZipFile(wheel) as archive:
                names = archive.namelist()
                archive.extractall(os.path.join(folder, "installed"))
            self.assertIn("kormaglen/libkormaglen.so", names)
            self.assertIn("kormaglen/py.typed", names)
            self.assertIn("kormaglen/dask/__init__.py", names)
            self.assertFalse([name for name in names if "test" in name])
            done = imports(PYTHONPATH=os.path.join(folder, "installed"))
            self.assertEqual((done.returncode, done.stdout.strip()), (0, K.library_version()), done.stderr)

    def test_without_a_library(self) -> None:
        with tempfile.TemporaryDirectory() as folder:
            done = self.build(folder, "/nowhere/libkormaglen.so")
            self.assertNotEqual(done.returncode, 0)
            said = done.stderr.strip().split("\n")[-1]
            self.assertEqual(
                said,
                "kormaglen: the shared library libkormaglen.so is not found (/nowhere/libkormaglen.so): "
                "build it with `make` in bindings/, or name it in KORMAGLEN_SO",
            )


if __name__ == "__main__":
    unittest.main()
