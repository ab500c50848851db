# find_package(juicedelta) finds the libraries and headers below the folder that this file is installed in:
#
#     find_package(juicedelta 0.1 REQUIRED)
#     target_link_libraries(program PRIVATE juicedelta::juicedelta)
#
# juicedelta::juicedelta is the shared library, juicedelta::static the archive. Headers are those of C and, for C++17, juicedelta.hpp.
get_filename_component(_juicedelta "${CMAKE_CURRENT_LIST_DIR}/../../.." ABSOLUTE)

foreach(_kind juicedelta static)
    if(NOT TARGET juicedelta::${_kind})
        if(_kind STREQUAL "static")
            add_library(juicedelta::static STATIC IMPORTED)
            set_target_properties(juicedelta::static PROPERTIES IMPORTED_LOCATION "${_juicedelta}/lib/libjuicedelta.a")
        else()
            add_library(juicedelta::juicedelta SHARED IMPORTED)
            set_target_properties(juicedelta::juicedelta PROPERTIES IMPORTED_LOCATION "${_juicedelta}/lib/libjuicedelta.so")
        endif()
        set_target_properties(juicedelta::${_kind} PROPERTIES INTERFACE_INCLUDE_DIRECTORIES "${_juicedelta}/include")
    endif()
endforeach()
unset(_juicedelta)
unset(_kind)
