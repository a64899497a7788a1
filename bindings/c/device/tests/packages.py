#!/usr/bin/env python3
"""Checks the files of bindings/c/device that package managers read, and builds as the package managers would: packages.py

PlatformIO, Arduino, ESP-IDF and Zephyr compile src/jcobs.c. None of these tools is run. The CMake file and the example for
Arduino are run, with stand-ins for the parts of each tool that they use.
"""

import json
import pathlib
import shutil
import subprocess
import sys
import tempfile

HERE = pathlib.Path(__file__).resolve().parent.parent
NEEDED = "name version author maintainer sentence paragraph category architectures includes".split()
# The definitions of ESP-IDF and Zephyr for the CMake file of a component or a module.
ESP_IDF = """function(idf_component_register)
    cmake_parse_arguments(it "" "" "SRCS;INCLUDE_DIRS" ${ARGN})
    add_library(component STATIC ${it_SRCS})
    target_include_directories(component PUBLIC ${it_INCLUDE_DIRS})
endfunction()
set(ESP_PLATFORM 1)
"""
ZEPHYR = """macro(zephyr_library)
    add_library(component STATIC)
endmacro()
macro(zephyr_library_sources)
    target_sources(component PRIVATE ${CMAKE_CURRENT_LIST_DIR}/${ARGN})
endmacro()
macro(zephyr_include_directories)
    target_include_directories(component PUBLIC ${CMAKE_CURRENT_LIST_DIR}/${ARGN})
endmacro()
set(CONFIG_JCOBS y)
"""
# The part of Arduino that the sketch uses, with standard input and output as the serial port.
ARDUINO = """#include <stdio.h>
struct Port {
    int next = getchar();
    void begin(long) {}
    int available() { return next != EOF; }
    int read() { int byte = next; next = getchar(); return byte; }
    void write(const unsigned char *bytes, size_t len) { fwrite(bytes, 1, len, stdout); }
} Serial;
void setup();
void loop();
int main() { setup(); loop(); }
"""


def check_library(folder):
    """Checks the library.json of a folder: of this folder, or of the repository, for projects that name the repository's address."""
    library = json.loads((folder / "library.json").read_text())
    build = library.pop("build")
    assert (folder / build.get("srcDir", "src")).resolve() == HERE / "src"
    assert all((folder / build["includeDir"] / header).is_file() for header in library["headers"])
    assert "srcFilter" not in build
    return library


def check_manifests():
    """Checks library.json, library.properties and the files of ESP-IDF and Zephyr."""
    library = check_library(HERE)
    assert check_library(HERE.parents[2]) == library
    lines = (HERE / "library.properties").read_text().splitlines()
    properties = dict(line.split("=", 1) for line in lines)
    assert list(properties) == NEEDED, sorted(properties)
    assert properties["name"] == library["name"] and properties["version"] == library["version"]
    assert f'version: "{library["version"]}"' in (HERE / "idf_component.yml").read_text()
    assert properties["architectures"] == library["platforms"] == "*"
    assert (HERE / "src" / properties["includes"]).is_file() and (HERE / "src/jcobs.c").is_file()
    module = (HERE / "zephyr/module.yml").read_text()
    assert "kconfig: zephyr/Kconfig" in module and "config JCOBS" in (HERE / "zephyr/Kconfig").read_text()


def run_sketch():
    """Runs the example for Arduino. It sends back each whole frame, also after frames that are broken or too long."""
    frames = [b"\1\0", b"\3hi\0", b"\1\2a\0", b"\x41" + b"x" * 64 + b"\0"]
    damaged = [b"\x09broken\0", b"\x42" + b"x" * 65 + b"\0", b"\0"]
    sent = b"".join(piece for pair in zip(frames, [*damaged, b""]) for piece in pair)
    with tempfile.TemporaryDirectory() as work:
        folder = pathlib.Path(work)
        (folder / "Arduino.h").write_text(ARDUINO)
        flags = ["-Wall", "-Wextra", "-Werror", f"-I{HERE}/src"]
        subprocess.run(["gcc", "-std=c99", *flags, "-c", HERE / "src/jcobs.c", "-o", folder / "jcobs.o"], check=True)
        sketch = ["-include", folder / "Arduino.h", "-x", "c++", HERE / "examples/Echo/Echo.ino", "-x", "none", folder / "jcobs.o"]
        subprocess.run(["g++", "-std=gnu++11", *flags, *sketch, "-o", folder / "echo"], check=True)
        echoed = subprocess.run([folder / "echo"], input=sent, capture_output=True, check=True).stdout
    assert echoed == b"".join(frames), echoed


def built_by_cmake(words):
    """Builds a program with the folder's CMakeLists.txt and these definitions of the tool."""
    with tempfile.TemporaryDirectory() as work:
        project = f"cmake_minimum_required(VERSION 3.16)\nproject(program C)\n{words}add_subdirectory({HERE} jcobs)\n"
        project += "add_executable(program main.c)\ntarget_link_libraries(program component)\n"
        (pathlib.Path(work) / "CMakeLists.txt").write_text(project)
        (pathlib.Path(work) / "main.c").write_text(
            "#include <jcobs.h>\nint main(void) { return jcobs_version() != JCOBS_VERSION; }\n"
        )
        for command in (
            ["cmake", "-S", work, "-B", f"{work}/build"],
            ["cmake", "--build", f"{work}/build"],
            [f"{work}/build/program"],
        ):
            subprocess.run(command, check=True, stdout=subprocess.DEVNULL)


def main():
    check_manifests()
    if shutil.which("g++"):
        run_sketch()
    if shutil.which("cmake"):
        built_by_cmake(ESP_IDF)
        built_by_cmake(ZEPHYR)
    print(f"= version {(HERE.parents[2] / 'VERSION').read_text().strip()}{'' if shutil.which('cmake') else '; no cmake'}")


if __name__ == "__main__":
    sys.exit(main())
