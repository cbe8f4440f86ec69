# find_package(rrcache) of CMake: the targets rrcache::rrcache, the shared library, and
# rrcache::rrcache_static, the archive. All paths go from where this file is, so that the folder
# that it was installed to can be moved.
get_filename_component(_rrcache_here "${CMAKE_CURRENT_LIST_DIR}" REALPATH)
get_filename_component(_rrcache_include "${_rrcache_here}/@INCLUDE@" ABSOLUTE)
get_filename_component(_rrcache_lib "${_rrcache_here}/../.." ABSOLUTE)

include(CMakeFindDependencyMacro)
find_dependency(Threads)

if(NOT TARGET rrcache::rrcache)
    add_library(rrcache::rrcache SHARED IMPORTED)
    set_target_properties(rrcache::rrcache PROPERTIES
        IMPORTED_LOCATION "${_rrcache_lib}/@SHARED@"
        IMPORTED_SONAME "@SONAME@"
        INTERFACE_INCLUDE_DIRECTORIES "${_rrcache_include}")
endif()

if(NOT TARGET rrcache::rrcache_static)
    add_library(rrcache::rrcache_static STATIC IMPORTED)
    set_target_properties(rrcache::rrcache_static PROPERTIES
        IMPORTED_LOCATION "${_rrcache_lib}/librrcache.a"
        IMPORTED_LINK_INTERFACE_LANGUAGES "C"
        INTERFACE_INCLUDE_DIRECTORIES "${_rrcache_include}"
        INTERFACE_LINK_LIBRARIES "Threads::Threads")
endif()

unset(_rrcache_here)
unset(_rrcache_include)
unset(_rrcache_lib)
