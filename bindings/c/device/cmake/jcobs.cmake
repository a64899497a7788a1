# Defines the library as a target: include(.../bindings/c/device/cmake/jcobs.cmake), then target_link_libraries(program jcobs::jcobs).
#
# jcobs.c is compiled with each call in a separate section, so that -Wl,--gc-sections leaves out the calls that the program
# doesn't make.
if(NOT TARGET jcobs::jcobs)
    get_filename_component(_jcobs_src "${CMAKE_CURRENT_LIST_DIR}/../src" ABSOLUTE)
    add_library(jcobs "${_jcobs_src}/jcobs.c")
    target_include_directories(jcobs PUBLIC "$<BUILD_INTERFACE:${_jcobs_src}>")
    target_compile_options(jcobs PRIVATE "$<$<C_COMPILER_ID:GNU,Clang,AppleClang,ARMClang,IntelLLVM>:-ffunction-sections>")
    set_target_properties(jcobs PROPERTIES C_STANDARD 99 WINDOWS_EXPORT_ALL_SYMBOLS ON)
    add_library(jcobs::jcobs ALIAS jcobs)
    unset(_jcobs_src)
endif()
