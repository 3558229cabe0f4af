"""Sets the tag of the wheel. pyproject.toml has all else.

A wheel with the shared library in src/pigyelund has the tag of this library: it needs glibc 2.34 or later, and x86-64
or ARM64. A wheel without it is for each system.
"""

from pathlib import Path

from setuptools import Distribution, setup

try:
    from setuptools.command.bdist_wheel import bdist_wheel
except ImportError:  # setuptools before 70.1 takes the package wheel
    from wheel.bdist_wheel import bdist_wheel

LIBRARY = Path(__file__).parent / "src" / "pigyelund" / "libpigyelund.so"
# The processors, by e_machine in the header of an ELF file.
PROCESSORS = {62: "x86_64", 183: "aarch64"}


def platform() -> str:
    """Returns the tag for the system of the library."""
    octets = LIBRARY.read_bytes()
    processor = PROCESSORS.get(int.from_bytes(octets[18:20], "little"))
    if processor is None or b"\0libc.so.6\0" not in octets:
        raise SystemExit(f"{LIBRARY}: expected a library for glibc on {' or '.join(PROCESSORS.values())}")
    return f"manylinux_2_34_{processor}"


class Package(Distribution):
    """The package, which is of a platform if it has the library."""

    def has_ext_modules(self) -> bool:
        """Returns whether the package has files of a platform."""
        return LIBRARY.exists()


class TaggedWheel(bdist_wheel):
    """Makes a wheel for each Python 3."""

    def get_tag(self) -> tuple[str, str, str]:
        """Returns the tag."""
        return "py3", "none", platform() if LIBRARY.exists() else "any"


setup(distclass=Package, cmdclass={"bdist_wheel": TaggedWheel})
