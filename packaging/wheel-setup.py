"""What setuptools has to know of the Python package sgflines. packaging/make-wheel.sh runs this beside the package, with VERSION and PLATFORM in
the environment."""
import os

import setuptools

try:
    from setuptools.command.bdist_wheel import bdist_wheel
except ImportError:  # before setuptools 70.1
    from wheel.bdist_wheel import bdist_wheel


class Distribution(setuptools.Distribution):
    """It has a library, so it is made for one kind of machine."""

    def has_ext_modules(self):
        return True


class Wheel(bdist_wheel):
    """The library isn't linked with Python, so the wheel is for every Python 3."""

    def get_tag(self):
        return "py3", "none", os.environ["PLATFORM"]


setuptools.setup(
    name="sgflines",
    version=os.environ["VERSION"],
    description="The lines of play of a Go game with variations (Smart Game Format), split and judged",
    long_description="The lines of play of a Go game with variations (Smart Game Format, FF[4]), split and judged in this process. "
                     "`help(sgflines)` has examples.",
    python_requires=">=3.9",
    packages=["sgflines"],
    package_data={"sgflines": ["py.typed", "libsgflines.so.0"]},
    zip_safe=False,
    distclass=Distribution,
    cmdclass={"bdist_wheel": Wheel},
)
