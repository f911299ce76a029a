# find_package(littlefs_c) defines the targets littlefs_c::static and littlefs_c::shared, and littlefs_c::lfs: the sources of lfs.h.
get_filename_component(_littlefs_c_prefix "${CMAKE_CURRENT_LIST_DIR}/@PREFIX@" ABSOLUTE)
if(NOT TARGET littlefs_c::static)
  add_library(littlefs_c::static STATIC IMPORTED)
  set_target_properties(littlefs_c::static PROPERTIES
    IMPORTED_LOCATION "${_littlefs_c_prefix}/@LIBDIR@/liblittlefs_c.a"
    INTERFACE_INCLUDE_DIRECTORIES "${_littlefs_c_prefix}/include")
  add_library(littlefs_c::shared SHARED IMPORTED)
  set_target_properties(littlefs_c::shared PROPERTIES
    IMPORTED_LOCATION "${_littlefs_c_prefix}/@SHARED@"
    INTERFACE_INCLUDE_DIRECTORIES "${_littlefs_c_prefix}/include")
  if(WIN32)
    set_target_properties(littlefs_c::shared PROPERTIES IMPORTED_IMPLIB "${_littlefs_c_prefix}/@LIBDIR@/liblittlefs_c.dll.a")
  endif()
  set(_littlefs_c_lfs "${_littlefs_c_prefix}/share/littlefs_c/lfs")
  add_library(littlefs_c::lfs INTERFACE IMPORTED)
  set_target_properties(littlefs_c::lfs PROPERTIES
    INTERFACE_SOURCES "${_littlefs_c_lfs}/lfs.c;${_littlefs_c_lfs}/lfs_util.c"
    INTERFACE_INCLUDE_DIRECTORIES "${_littlefs_c_lfs}")
endif()
