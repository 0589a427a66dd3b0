"""For setuptools: the version, and where the launcher lies that the module runs. pyproject.toml has all else."""

import sys
from pathlib import Path

from setuptools import setup
from setuptools.command.build_py import build_py

sys.path.insert(0, str(Path(__file__).resolve().parent / "packaging"))

import plain_wheel  # noqa: E402


class Build(build_py):
    def run(self) -> None:
        super().run()
        (Path(self.build_lib) / plain_wheel.ORIGIN).write_text(plain_wheel.origin())


setup(version=plain_wheel.version(), cmdclass={"build_py": Build})
