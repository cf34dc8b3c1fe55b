"""Puts the shared library beside the modules, and tags the wheel with the platform for which that library
is. All else is in pyproject.toml."""

import os
import shutil
import subprocess
import sysconfig

from setuptools import setup
from setuptools.command.build_py import build_py
from setuptools.dist import Distribution

try:
    from setuptools.command.bdist_wheel import bdist_wheel
except ImportError:  # before setuptools 70.1
    from wheel.bdist_wheel import bdist_wheel

HERE = os.path.dirname(os.path.abspath(__file__))
NAME = "libkormaglen.so"


def _of_pkg_config():
    """Where pkg-config knows the library, if it does."""
    try:
        said = subprocess.run(
            ["pkg-config", "--variable=libdir", "kormaglen"], capture_output=True, text=True, check=True
        )
    except (OSError, subprocess.CalledProcessError):
        return []
    return [os.path.join(said.stdout.strip(), NAME)]


def library():
    """The shared library to put into the wheel. KORMAGLEN_SO names the one and only place where it may
    be."""
    named = os.environ.get("KORMAGLEN_SO")
    places = [named] if named else [os.path.join(HERE, os.pardir, "out", NAME), *_of_pkg_config()]
    for place in places:
        if os.path.isfile(place):
            return place
    raise SystemExit(
        f"kormaglen: the shared library {NAME} is not found ({', '.join(map(os.path.normpath, places))}): "
        "build it with `make` in bindings/, or name it in KORMAGLEN_SO"
    )


class BuildPy(build_py):
    """Copies the modules, and the shared library with them. An editable install finds the library where it
    was built."""

    def run(self):
        place = library()
        super().run()
        if not self.editable_mode:
            shutil.copyfile(place, os.path.join(self.build_lib, "kormaglen", NAME))

    def get_outputs(self, include_bytecode=1):
        outputs = super().get_outputs(include_bytecode)
        return (
            outputs if self.editable_mode else [*outputs, os.path.join(self.build_lib, "kormaglen", NAME)]
        )


class PlatformWheel(bdist_wheel):
    """A wheel for any Python 3 and one platform: the modules are Python's, and the library is no extension
    of it."""

    def finalize_options(self):
        super().finalize_options()
        self.root_is_pure = False

    def get_tag(self):
        return "py3", "none", sysconfig.get_platform().replace("-", "_").replace(".", "_")


class WithLibrary(Distribution):
    """Its files go where those of extensions go."""

    def has_ext_modules(self):
        """What setuptools asks for that."""
        return True


setup(cmdclass={"build_py": BuildPy, "bdist_wheel": PlatformWheel}, distclass=WithLibrary)
