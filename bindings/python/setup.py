"""Builds the extension over the C library, if this machine can. Without it the package works in plain Python.

The built library, libjcobs.a, is taken from the first of these folders that has it:

- the folder that JCOBS_LIB_DIR names;
- bindings/c/build of the repository, in which `make` of bindings/c writes it;
- bindings/c/prebuilt of the repository;
- libjcobs/ of a source distribution.

If there is no libjcobs.a for this system, jcobs.c is compiled. Most of this C source is translated from proved
functions.

JCOBS_BACKEND chooses the backend: prebuilt (libjcobs.a), compiled (jcobs.c), or python, which compiles nothing.
"""

import os
import platform
import re
import shutil
import sys
import sysconfig
from pathlib import Path

from setuptools import Extension, setup
from setuptools.command.build_ext import build_ext
from setuptools.command.build_py import build_py
from setuptools.command.sdist import sdist

try:
    from setuptools.command.bdist_wheel import bdist_wheel
except ImportError:  # before setuptools 70.1
    from wheel.bdist_wheel import bdist_wheel

HERE = Path(__file__).resolve().parent
C = HERE.parent / "c"
CARRIED = HERE / "libjcobs"
MACHINES = ("x86_64", "aarch64")
MACHINE = {"amd64": "x86_64", "arm64": "aarch64"}.get(platform.machine().lower(), platform.machine())


def places(machine):
    """Yields the files that may be the library for a machine, in the order in which they are tried."""
    if "JCOBS_LIB_DIR" in os.environ and machine == MACHINE:
        yield Path(os.environ["JCOBS_LIB_DIR"]) / "libjcobs.a"
    yield C / f"build/{machine}-unknown-linux-gnu/libjcobs.a"
    for folder in (C / "prebuilt", CARRIED):
        yield folder / f"{machine}-linux" / "libjcobs.a"


def first(paths):
    return next((path for path in paths if path.is_file()), None)


def library(machine):
    return first(places(machine))


def source():
    """The library as C."""
    return first((C / "source/jcobs.c", CARRIED / "jcobs.c"))


def include():
    """The folder of jcobs.h."""
    return (first((C / "include/jcobs.h", CARRIED / "include/jcobs.h")) or C / "include/jcobs.h").parent


def version():
    """The version of the package, which the extension has too."""
    return re.search(r'^__version__ = "(.*?)"', (HERE / "src/jcobs/__init__.py").read_text(), re.M)[1]


def extensions():
    """The extension over the library or over its source, or nothing: then the package is plain Python."""
    linux = sys.platform.startswith("linux")
    asked = os.environ.get("JCOBS_BACKEND")
    found = library(MACHINE) if linux and asked != "compiled" else None
    stable_abi = sys.implementation.name == "cpython" and not sysconfig.get_config_var("Py_GIL_DISABLED")
    if asked not in (None, "", "prebuilt", "compiled", "python"):
        sys.exit("jcobs: JCOBS_BACKEND must be prebuilt, compiled or python")
    if asked in ("prebuilt", "compiled") and not (stable_abi and (found if asked == "prebuilt" else source())):
        sys.exit(
            f"jcobs: there is no library that is {asked} for {sys.implementation.name} on {sys.platform}, {MACHINE}"
        )
    if not stable_abi or asked == "python" or not (found or source()):
        return []
    sources = sorted(str(path.relative_to(HERE)) for path in (HERE / "src/_core").glob("*.c"))
    return [
        Extension(
            "jcobs._core",
            sources=sources if found else [*sources, os.path.relpath(source(), HERE)],
            depends=["src/_core/core.h", *([str(found)] if found else [])],
            include_dirs=[str(include())],
            define_macros=[
                ("Py_LIMITED_API", "0x03090000"),
                ("JCOBS_PACKAGE", f'"{version()}"'),
                # JCOBS_FAST: jcobs.c for a host
                *([] if found else [("JCOBS_COMPILED", "1"), ("JCOBS_FAST", "1")]),
            ],
            extra_objects=[str(found)] if found else [],
            extra_compile_args=["-std=c99", "-fvisibility=hidden"] if linux else [],
            extra_link_args=["-Wl,--exclude-libs,ALL", "-Wl,--strip-debug"] if linux else [],
            py_limited_api=True,
            optional=not asked,
        )
    ]


def licences():
    """The licences, which a source distribution has beside this file and the repository at its top."""
    return sorted(HERE.glob("LICENSE-*")) or sorted(HERE.parent.parent.glob("LICENSE-*"))


def say(backend):
    """Says what was built. pip shows it with -v; `python -m jcobs --version` says it of what is installed."""
    print(f"jcobs {version()}: built with the backend {backend}", file=sys.stderr)


class BuildAnew(build_py):
    """Removes what an earlier build of another state of the package left where this one is built."""

    def run(self):
        if not getattr(self, "editable_mode", False):
            shutil.rmtree(Path(self.build_lib) / "jcobs", ignore_errors=True)
        super().run()
        if not self.distribution.ext_modules:
            say("python")


class BuildWhatCompiles(build_ext):
    """Removes an earlier extension, so that it isn't taken for this one if that isn't compiled; and says what was built."""

    def built(self, ext):
        """Where the extension may be: where it is built, and in an editable installation beside the sources."""
        name = self.get_ext_filename(self.get_ext_fullname(ext.name))
        folders = [self.build_lib, HERE / "src"] if self.inplace else [self.build_lib]
        return [Path(folder) / name for folder in folders]

    def run(self):
        for ext in self.extensions:
            for path in self.built(ext):
                path.unlink(missing_ok=True)
        super().run()
        for ext in self.extensions:
            compiled = all(path.is_file() for path in self.built(ext))
            way = "compiled" if ("JCOBS_COMPILED", "1") in ext.define_macros else "prebuilt"
            say(way if compiled else "python")


class WheelForWhatWasBuilt(bdist_wheel):
    """A wheel for every Python and system if nothing was compiled; with the licences."""

    def get_tag(self):
        built = self.get_finalized_command("build_ext")
        compiled = any(path.is_file() for ext in built.extensions or [] for path in built.built(ext))
        return super().get_tag() if compiled else ("py3", "none", "any")

    def egg2dist(self, egg_info, dist_info):
        super().egg2dist(egg_info, dist_info)
        for licence in licences():
            shutil.copy(licence, dist_info)


class SdistWithLibrary(sdist):
    """A source distribution that carries the header, the libraries, the source and the licences."""

    def make_release_tree(self, base_dir, files):
        super().make_release_tree(base_dir, files)
        carried = Path(base_dir) / CARRIED.name
        (carried / "include").mkdir(parents=True, exist_ok=True)
        shutil.copy(include() / "jcobs.h", carried / "include")
        if source():
            shutil.copy(source(), carried)
        for machine in MACHINES:
            found = library(machine)
            if found is not None:
                folder = carried / f"{machine}-linux"
                folder.mkdir(exist_ok=True)
                shutil.copy(found, folder)
        for licence in licences():
            shutil.copy(licence, base_dir)


if __name__ == "__main__":
    modules = extensions()
    setup(
        cmdclass={
            "build_ext": BuildWhatCompiles,
            "build_py": BuildAnew,
            "sdist": SdistWithLibrary,
            "bdist_wheel": WheelForWhatWasBuilt,
        },
        # built anew each time, as what was built before may be over another library
        options={"build_ext": {"force": True}, "bdist_wheel": {"py_limited_api": "cp39"}} if modules else {},
        ext_modules=modules,
    )
