"""Builds the extension over the proved library: the archive that VOKUJIN_LIBRARY names, or ../build/libvokujin.a."""

import os
import sysconfig

from setuptools import Extension, setup
from setuptools.command.build_ext import build_ext

HERE = os.path.dirname(os.path.abspath(__file__))
LIBRARY = os.environ.get("VOKUJIN_LIBRARY") or os.path.join(os.path.dirname(HERE), "build", "libvokujin.a")
HEADER = os.path.join("..", "c", "vokujin.h")
# The stable ABI of Python 3.10, which builds without the interpreter's lock do not have.
STABLE = not sysconfig.get_config_var("Py_GIL_DISABLED")


class Build(build_ext):
    def run(self):
        if not os.path.isfile(LIBRARY):
            raise SystemExit(
                f"vokujin: there is no library {LIBRARY}. Build it by 'make -C bindings' in the project's checkout, "
                "or set VOKUJIN_LIBRARY to the absolute path of a libvokujin.a"
            )
        super().run()


core = Extension(
    "vokujin._core",
    ["src/vokujin/_core.c"],
    include_dirs=[os.path.dirname(HEADER)],
    depends=[HEADER, HEADER.replace(".h", "_cursor.h"), LIBRARY],
    extra_objects=[LIBRARY],
    extra_compile_args=["-std=c11", "-Wall", "-Wextra", "-fvisibility=hidden"],
    extra_link_args=["-Wl,--exclude-libs,ALL"],
    define_macros=[("Py_LIMITED_API", "0x030A0000")] if STABLE else [],
    py_limited_api=STABLE,
)
setup(ext_modules=[core], cmdclass={"build_ext": Build}, options={"bdist_wheel": {"py_limited_api": "cp310"}} if STABLE else {})
