"""What pyproject.toml can't say: the version, which is that of include/tmchan.h, and the wheel's tag. The package is
Python alone with a library beside it, so that it fits every Python of one platform; TMCHAN_PLATFORM names that, and
TMCHAN_BUILD what follows the version (tools/wheel)."""
import os
import re

from setuptools import setup
from setuptools.dist import Distribution
from wheel.bdist_wheel import bdist_wheel

HEADER = os.environ.get(
    "TMCHAN_HEADER", os.path.join(os.path.dirname(os.path.abspath(__file__)), "../include/tmchan.h")
)


def version():
    with open(HEADER, encoding="utf-8") as file:
        number = int(re.search(r"#define TMCHAN_VERSION (\w+)", file.read())[1], 0)
    return f"{number >> 16}.{number >> 8 & 255}.{number & 255}{os.environ.get('TMCHAN_BUILD', '')}"


class Tagged(bdist_wheel):
    def get_tag(self):
        return "py3", "none", os.environ["TMCHAN_PLATFORM"]


class WithLibrary(Distribution):
    def has_ext_modules(self):
        return True


setup(version=version(), cmdclass={"bdist_wheel": Tagged}, distclass=WithLibrary)
