"""The wheel holds a compiled library, so it is one for its platform, and for every Python 3. `make python` puts the
library, the licenses and docs/LIBRARY.md beside this file, and names the processor in PTEXT_MACHINE."""
import os
import platform
import re
import subprocess

from setuptools import setup
from setuptools.dist import Distribution
from wheel.bdist_wheel import bdist_wheel

# The libraries that every Linux with the GNU C library has, and that of each with musl.
EVERYWHERE = {"libc.so.6", "ld-linux-x86-64.so.2", "ld-linux-aarch64.so.1"}
OF_MUSL = {"libc.so"}
MACHINE = os.environ.get("PTEXT_MACHINE") or platform.machine()
OBJDUMP = "objdump" if MACHINE == platform.machine() else f"{MACHINE}-linux-gnu-objdump"


def find_platform():
    """The platforms on which the library can be loaded: `manylinux_2_14_x86_64` is Linux with the GNU C library 2.14 or
    later, the newest version of which it uses a symbol; `musllinux_1_2_x86_64` is Linux with musl."""
    said = subprocess.run([OBJDUMP, "-p", "ptext/libptext.so"], capture_output=True, text=True, check=True).stdout
    versions = [(int(major), int(minor)) for major, minor in re.findall(r"\bGLIBC_(\d+)\.(\d+)", said)]
    needed = set(re.findall(r"NEEDED +(\S+)", said))
    if needed == OF_MUSL:
        return f"musllinux_1_2_{MACHINE}"
    if not versions or not needed <= EVERYWHERE:
        return f"linux_{MACHINE}"
    major, minor = max(versions)
    return f"manylinux_{major}_{minor}_{MACHINE}"


def make_description():
    """The section about Python of docs/LIBRARY.md."""
    with open("LIBRARY.md", encoding="utf-8") as file:
        section = re.search(r"^## Python\n(.*?)^## ", file.read(), re.M | re.S)
    return f"# ptext\n{section[1]}"


class Compiled(Distribution):
    def has_ext_modules(self):
        return True


class AnyPython(bdist_wheel):
    def get_tag(self):
        return "py3", "none", find_platform()


setup(
    distclass=Compiled,
    cmdclass={"bdist_wheel": AnyPython},
    long_description=make_description(),
    long_description_content_type="text/markdown",
)
