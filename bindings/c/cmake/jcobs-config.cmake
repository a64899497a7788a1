# find_package(jcobs) defines the target jcobs::jcobs, which is the static library with the folder of its headers. If the shared
# library is installed too, the target jcobs::shared is that library.
#
# This file is installed to lib/cmake/jcobs of a prefix, and finds the library in that prefix. In the repository, if
# CMAKE_PREFIX_PATH names bindings/c, the file finds the library of prebuilt/ for the target's processor.
if(EXISTS "${CMAKE_CURRENT_LIST_DIR}/jcobs-targets.cmake") # jcobs.c was compiled and installed by CMake
    include("${CMAKE_CURRENT_LIST_DIR}/jcobs-targets.cmake")
    return()
endif()
foreach(_jcobs_up IN ITEMS .. ../../.. ../../../..)
    get_filename_component(_jcobs_include "${CMAKE_CURRENT_LIST_DIR}/${_jcobs_up}/include" ABSOLUTE)
    if(EXISTS "${_jcobs_include}/jcobs.h")
        break()
    endif()
endforeach()
get_filename_component(_jcobs_library "${CMAKE_CURRENT_LIST_DIR}/../../libjcobs.a" ABSOLUTE)
if(NOT EXISTS "${_jcobs_library}")
    string(REPLACE "arm64" "aarch64" _jcobs_processor "${CMAKE_SYSTEM_PROCESSOR}")
    get_filename_component(_jcobs_library
        "${CMAKE_CURRENT_LIST_DIR}/../prebuilt/${_jcobs_processor}-linux/libjcobs.a" ABSOLUTE)
endif()
if(NOT CMAKE_SYSTEM_NAME STREQUAL "Linux" OR NOT EXISTS "${_jcobs_library}")
    set(jcobs_FOUND FALSE)
    set(jcobs_NOT_FOUND_MESSAGE
        "jcobs is built for Linux on x86_64 and aarch64, and not for ${CMAKE_SYSTEM_NAME} on ${CMAKE_SYSTEM_PROCESSOR}")
    return()
endif()
if(NOT TARGET jcobs::jcobs)
    add_library(jcobs::jcobs STATIC IMPORTED)
    set_target_properties(jcobs::jcobs PROPERTIES
        IMPORTED_LOCATION "${_jcobs_library}"
        IMPORTED_LINK_INTERFACE_LANGUAGES C
        INTERFACE_INCLUDE_DIRECTORIES "${_jcobs_include}")
endif()
get_filename_component(_jcobs_library "${CMAKE_CURRENT_LIST_DIR}/../../libjcobs.so" ABSOLUTE)
if(NOT TARGET jcobs::shared AND EXISTS "${_jcobs_library}")
    add_library(jcobs::shared SHARED IMPORTED)
    set_target_properties(jcobs::shared PROPERTIES
        IMPORTED_LOCATION "${_jcobs_library}"
        IMPORTED_SONAME libjcobs.so.1
        INTERFACE_INCLUDE_DIRECTORIES "${_jcobs_include}")
endif()
unset(_jcobs_include)
unset(_jcobs_library)
unset(_jcobs_processor)
unset(_jcobs_up)
