"""There is no wheel without the shared library; pyproject.toml has all the rest."""

from pathlib import Path

from setuptools import setup
from setuptools.command.build_py import build_py


class WithLibrary(build_py):
    def run(self) -> None:
        if not Path("noskjerf/libnoskjerf.so").is_file():
            raise SystemExit("there is no noskjerf/libnoskjerf.so; python/build makes it")
        super().run()


setup(cmdclass={"build_py": WithLibrary})
