"""Puts the shared library into the wheel, which is then for one platform, and for each Python 3.

The library is libhtml_render.so.0 of the folder that the variable HTML_RENDER_LIB of the environment names, or of bindings/out.
"""

import os
import shutil
from pathlib import Path

from setuptools import setup
from setuptools.command.build_py import build_py
from wheel.bdist_wheel import bdist_wheel

LIBRARY = "libhtml_render.so.0"
OUT = Path(__file__).resolve().parent.parent / "out"


class BuildWithLibrary(build_py):
    """Builds the package with the library in its folder."""

    def run(self):
        super().run()
        shutil.copy(Path(os.environ.get("HTML_RENDER_LIB", OUT)) / LIBRARY, Path(self.build_lib) / "html_render")


class PlatformWheel(bdist_wheel):
    """Builds a wheel of a platform."""

    def finalize_options(self):
        super().finalize_options()
        self.root_is_pure = False

    def get_tag(self):
        *_, platform = super().get_tag()
        return "py3", "none", platform


setup(cmdclass={"build_py": BuildWithLibrary, "bdist_wheel": PlatformWheel})
