"""Builds `kombilad._native`: the extension module, with libkombilad in it.

libkombilad is one C file, which the repository has in `dist`. It is copied to `c` here, and the
licences into this folder, so that an sdist contains them. An sdist has a file PKG-INFO, and needs
nothing outside of its folder.
"""

import pathlib
import shutil
import sys

from setuptools import Extension, errors, setup
from setuptools.command.build_ext import build_ext

HERE = pathlib.Path(__file__).resolve().parent
TOP = HERE.parent.parent
COPIES = {
    "dist/kombilad.c": "c/kombilad.c",
    "dist/kombilad.h": "c/kombilad.h",
    "LICENSE-APACHE": "LICENSE-APACHE",
    "LICENSE-MIT": "LICENSE-MIT",
}
NATIVE = sorted(it.relative_to(HERE).as_posix() for it in HERE.glob("native/*.c"))


def copy_from_repository():
    """Copies the C file of libkombilad, its header and the licences into this folder."""
    for source, copy in COPIES.items():
        if not (TOP / source).is_file():
            sys.exit(
                f"kombilad: {TOP / source} is missing: build in a whole clone of the repository,"
                " by pip 21.3 or later, or from the sdist"
            )
        (HERE / copy).parent.mkdir(exist_ok=True)
        shutil.copyfile(TOP / source, HERE / copy)


class BuildNative(build_ext):
    """Reports the required tools if a C file can't be compiled."""

    def build_extensions(self):
        try:
            super().build_extensions()
        except (errors.CCompilerError, errors.BaseError) as wrong:
            sys.exit(
                f"kombilad: the extension module was not built: {wrong}. It needs a C compiler and"
                " Python's headers (on Debian: apt-get install gcc libc6-dev python3-dev)"
            )


if not (HERE / "PKG-INFO").is_file():
    copy_from_repository()

setup(
    cmdclass={"build_ext": BuildNative},
    ext_modules=[
        Extension(
            "kombilad._native",
            [*NATIVE, "c/kombilad.c"],
            depends=["native/native.h", "c/kombilad.h"],
            include_dirs=["native", "c"],
            # Without optimization libkombilad is many times slower and takes more stack.
            extra_compile_args=["-std=c11", "-O2", "-g0"],
            py_limited_api=True,
        )
    ],
    # CPython's stable ABI: one wheel for every version from 3.9 on.
    options={"bdist_wheel": {"py_limited_api": "cp39"}},
)
