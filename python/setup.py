"""A wheel that holds the shared library is for its platform alone; one without it is for all. The library is that in the folder of the
package or, in the sources after make, that of their build folder. All else stands in pyproject.toml."""
import shutil
from pathlib import Path

from setuptools import Distribution, setup
from setuptools.command.build_py import build_py

try:
    from setuptools.command.bdist_wheel import bdist_wheel
except ImportError:
    from wheel.bdist_wheel import bdist_wheel

HERE = Path(__file__).resolve().parent
ROOT = HERE.parent
INSIDE = any((HERE / "jingcobu").glob("libjingcobu.so*"))
BUILT = ROOT / "build" / "libjingcobu.so"
SOURCES = HERE.name == "python" and (ROOT / "include" / "jingcobu.h").is_file() and (ROOT / "crates.txt").is_file()
TAKEN = not INSIDE and SOURCES and BUILT.is_file()


class Built(Distribution):
    def has_ext_modules(self):
        return INSIDE or TAKEN


class Filled(build_py):
    def run(self):
        super().run()
        if TAKEN and not getattr(self, "editable_mode", False):
            shutil.copy(BUILT, Path(self.build_lib) / "jingcobu" / "libjingcobu.so")


class Tagged(bdist_wheel):
    def get_tag(self):
        """Any Python 3, whatever its own interface: the library is called through ctypes."""
        _, _, platform = super().get_tag()
        return ("py3", "none", platform)


setup(distclass=Built, cmdclass={"bdist_wheel": Tagged, "build_py": Filled})
