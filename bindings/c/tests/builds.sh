# Tests the builds by tools other than make, each with a program that runs. run.sh sources this file.
#
# run.sh defines $work, $at, $flags, messages, calls and prints.
# shellcheck shell=sh
# shellcheck disable=SC2016,SC2046,SC2086,SC2154

# Builds the examples with find_package and a folder in CMAKE_PREFIX_PATH. Version 2 isn't found.
found_by_cmake() { # PREFIX TARGET
    rm -rf "$work/cmake"
    mkdir -p "$work/example" && cp examples/*.c* "$work/example" && sed "s/jcobs::jcobs/$2/" examples/CMakeLists.txt >"$work/example/CMakeLists.txt" &&
        cmake -S "$work/example" -B "$work/cmake" -DCMAKE_PREFIX_PATH="$1" && cmake --build "$work/cmake" || return 1
    echo hi | "$work/cmake/send_lines" | prints 'message 2 6869' "$work/cmake/read_frames" || return 1
    mkdir -p "$work/second" && sed 's/jcobs 1.0/jcobs 2.0/; /^add_executable/,$d' examples/CMakeLists.txt >"$work/second/CMakeLists.txt"
    ! cmake -S "$work/second" -B "$work/second/build" -DCMAKE_PREFIX_PATH="$1" >"$work/cmaked" 2>&1 &&
        grep -q 'not compatible\|considered but not accepted' "$work/cmaked"
}


# Copies the files of this repository that a build needs, as if they were fetched, and prints the folder.
repository() {
    rm -rf "$work/repository" && mkdir -p "$work/repository/bindings" && cp ../../CMakeLists.txt ../../meson.build ../../meson_options.txt \
        ../../VERSION ../../LICENSE-* "$work/repository" && cp -R ../../conformance "$work/repository" || return 1
    tar -cf "$work/c.tar" --exclude=./build . && mkdir "$work/repository/bindings/c" && tar -xf "$work/c.tar" -C "$work/repository/bindings/c" &&
        echo "$work/repository"
}

# Builds a project that fetches this repository, with the built library or jcobs.c. The project installs and exports a library,
# and a program finds that library.
fetched() { # OPTION FLAG..: of FetchContent_Declare, and of CMake
    subdir=$1
    shift
    repository >"$work/said.tar" || return 1
    rm -rf "$work/fetching" && mkdir -p "$work/fetching/used" && cp examples/messages.cpp "$work/fetching/used" || return 1
    tar -cf "$work/fetching/jcobs.tar" -C "$work" repository || return 1
    cat >"$work/fetching/CMakeLists.txt" <<END
cmake_minimum_required(VERSION 3.18)
project(fetching VERSION 1.0 LANGUAGES C)
include(FetchContent)
FetchContent_Declare(jcobs URL "\${CMAKE_SOURCE_DIR}/jcobs.tar" $subdir)
FetchContent_MakeAvailable(jcobs)
add_library(sender sender.c)
target_link_libraries(sender PUBLIC jcobs::jcobs)
install(TARGETS sender EXPORT sender-targets)
install(EXPORT sender-targets NAMESPACE sender:: DESTINATION lib/cmake/sender)
install(FILES sender-config.cmake DESTINATION lib/cmake/sender)
END
    printf 'include(CMakeFindDependencyMacro)\nfind_dependency(jcobs 1.0)\ninclude("${CMAKE_CURRENT_LIST_DIR}/sender-targets.cmake")\n' \
        >"$work/fetching/sender-config.cmake"
    printf '#include <jcobs.h>\nunsigned int sender_version(void);\nunsigned int sender_version(void)\n{\n    return jcobs_version();\n}\n' \
        >"$work/fetching/sender.c"
    cat >"$work/fetching/used/CMakeLists.txt" <<'END'
cmake_minimum_required(VERSION 3.16)
project(used LANGUAGES C CXX)
set(CMAKE_CXX_STANDARD 17)
find_package(sender REQUIRED)
add_executable(messages messages.cpp)
target_link_libraries(messages sender::sender)
END
    for flag in -DBUILD_SHARED_LIBS=OFF -DBUILD_SHARED_LIBS=ON; do
        rm -rf "$work/fetching/build" "$work/fetching/used/build" "$work/fetching/prefix"
        cmake -S "$work/fetching" -B "$work/fetching/build" -DCMAKE_INSTALL_PREFIX="$work/fetching/prefix" $flag "$@" &&
            cmake --build "$work/fetching/build" --target install || return 1
        cmake -S "$work/fetching/used" -B "$work/fetching/used/build" -DCMAKE_PREFIX_PATH="$work/fetching/prefix" &&
            cmake --build "$work/fetching/used/build" && at=$work/fetching/used/build messages || return 1
    done
}


# Builds a project that has this repository as a folder, and whose own C is C90.
added() {
    repository=$(repository) || return 1
    rm -rf "$work/adding" && mkdir -p "$work/adding" && cp examples/messages.cpp "$work/adding" || return 1
    printf 'cmake_minimum_required(VERSION 3.16)\nproject(adding LANGUAGES C CXX)\nset(CMAKE_C_STANDARD 90)\nset(CMAKE_CXX_STANDARD 17)\nadd_subdirectory(%s jcobs)\nadd_executable(messages messages.cpp)\ntarget_link_libraries(messages jcobs::jcobs)\n' \
        "$repository" >"$work/adding/CMakeLists.txt"
    for flag in -DJCOBS_FROM_SOURCE=OFF -DJCOBS_FROM_SOURCE=ON; do
        rm -rf "$work/adding/build"
        cmake -S "$work/adding" -B "$work/adding/build" $flag && cmake --build "$work/adding/build" && at=$work/adding/build messages || return 1
    done
}

# Checks that the library is installed, with its calls and no other symbols, and that a program finds it and runs.
shared_by_cmake() {
    repository=$(repository) || return 1
    cmake -S "$repository" -B "$work/by_cmake" -DJCOBS_FROM_SOURCE=ON -DBUILD_SHARED_LIBS=ON -DCMAKE_INSTALL_PREFIX="$work/by_cmake/prefix" &&
        cmake --build "$work/by_cmake" --target install || return 1
    library=$(find "$work/by_cmake/prefix" -name libjcobs.so.1) && test -n "$library" || return 1
    prints "$(calls | sort)" sh -c "nm -D --defined-only '$library' | sed 's/.* T //' | sort" || return 1
    found_by_cmake "$work/by_cmake/prefix" jcobs::jcobs && readelf -d "$work/cmake/send_lines" | grep -q 'NEEDED.*libjcobs.so.1'
}

sections_by_cmake() {
    repository=$(repository) || return 1
    cmake -S "$repository" -B "$work/in_sections" -DJCOBS_FROM_SOURCE=ON && cmake --build "$work/in_sections" || return 1
    library=$(find "$work/in_sections" -name libjcobs.a) && for call in $(calls); do
        readelf -SW "$library" | grep -q " \.text\.$call " || { echo "$call has no section"; return 1; }
    done
}

# Builds, tests and installs with Meson, and runs a program that finds the library by pkg-config.
by_meson() { # LIBRARY FILE FLAG..
    kind=$1
    file=$2
    shift 2
    repository=$(repository) || return 1
    rm -rf "$work/meson" && meson setup "$work/meson" "$repository" --prefix="$work/meson/prefix" --libdir=lib --werror -Ddefault_library=$kind "$@" &&
        meson test -C "$work/meson" && meson install -C "$work/meson" && test -f "$work/meson/prefix/lib/$file" || return 1
    "${CC:-cc}" -std=c99 examples/send_lines.c $(PKG_CONFIG_LIBDIR=$work/meson/prefix/lib/pkgconfig pkg-config --cflags --libs jcobs) -o "$work/send_lines" &&
        prints ' 03 68 69 00' sh -c "echo hi | LD_LIBRARY_PATH=$work/meson/prefix/lib '$work/send_lines' | od -An -tx1"
}

meson_subproject() {
    repository=$(repository) || return 1
    rm -rf "$work/over" && mkdir -p "$work/over/subprojects" && mv "$repository" "$work/over/subprojects/jcobs" && cp examples/messages.cpp "$work/over" || return 1
    printf "project('over', 'c', 'cpp', default_options: 'cpp_std=c++17')\nexecutable('messages', 'messages.cpp', dependencies: dependency('jcobs', fallback: 'jcobs'))\n" \
        >"$work/over/meson.build"
    PKG_CONFIG_LIBDIR=$work meson setup "$work/over/build" "$work/over" && meson compile -C "$work/over/build" && at=$work/over/build messages
}

# Checks that a prefix is as before, after an installation and uninstall.
uninstalled() (
    mkdir -p "$work/other/lib/pkgconfig" "$work/other/share/doc" && echo >"$work/other/lib/libother.a" || return 1
    make install "PREFIX=$work/other" && test -f "$work/other/lib/libjcobs.a" && make uninstall "PREFIX=$work/other" &&
        prints "$work/other/lib/libother.a" find "$work/other" -type f -o -type l
)
