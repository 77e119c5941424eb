# find_package(pgpeer) gives pgpeer::static, the archive, and pgpeer::shared, the shared object. This file lies beside them, or
# in lib/cmake/pgpeer of where they are installed.
set(_pgpeer_libraries "${CMAKE_CURRENT_LIST_DIR}")
set(_pgpeer_headers "${CMAKE_CURRENT_LIST_DIR}")
if(NOT EXISTS "${_pgpeer_libraries}/libpgpeer.a")
    get_filename_component(_pgpeer_libraries "${CMAKE_CURRENT_LIST_DIR}/../.." ABSOLUTE)
    get_filename_component(_pgpeer_headers "${CMAKE_CURRENT_LIST_DIR}/../../../include" ABSOLUTE)
endif()

if(NOT TARGET pgpeer::static)
    add_library(pgpeer::static STATIC IMPORTED)
    set_target_properties(pgpeer::static PROPERTIES
        IMPORTED_LOCATION "${_pgpeer_libraries}/libpgpeer.a"
        INTERFACE_INCLUDE_DIRECTORIES "${_pgpeer_headers}")
    add_library(pgpeer::shared SHARED IMPORTED)
    set_target_properties(pgpeer::shared PROPERTIES
        IMPORTED_LOCATION "${_pgpeer_libraries}/libpgpeer.so.0"
        IMPORTED_SONAME "libpgpeer.so.0"
        INTERFACE_INCLUDE_DIRECTORIES "${_pgpeer_headers}")
endif()

unset(_pgpeer_libraries)
unset(_pgpeer_headers)
