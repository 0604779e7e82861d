# find_package(ww) makes these targets: ww::ww (libww.so), ww::ww_static (libww.a), and of the library that reports
# misuse ww::ww_debug and ww::ww_debug_static, which define WW_DEBUG.
include(CMakeFindDependencyMacro)
set(THREADS_PREFER_PTHREAD_FLAG ON)
find_dependency(Threads)

# By its real path: /lib may be another name of /usr/lib.
get_filename_component(_ww_here "${CMAKE_CURRENT_LIST_FILE}" REALPATH)
get_filename_component(_ww_prefix "${_ww_here}/../@UP@" ABSOLUTE)

function(_ww_target name kind file defines)
  if(TARGET ww::${name})
    return()
  endif()
  add_library(ww::${name} ${kind} IMPORTED)
  set_target_properties(ww::${name} PROPERTIES
    IMPORTED_LOCATION "${_ww_prefix}/@LIBDIR@/${file}"
    IMPORTED_LINK_INTERFACE_LANGUAGES C
    INTERFACE_INCLUDE_DIRECTORIES "${_ww_prefix}/@INCLUDEDIR@"
    INTERFACE_COMPILE_DEFINITIONS "${defines}")
  if(kind STREQUAL SHARED)
    set_target_properties(ww::${name} PROPERTIES IMPORTED_SONAME ${file})
  else()
    set_target_properties(ww::${name} PROPERTIES INTERFACE_LINK_LIBRARIES Threads::Threads)
  endif()
endfunction()

_ww_target(ww SHARED libww.so.@INTERFACE@ "")
_ww_target(ww_static STATIC libww.a "")
_ww_target(ww_debug SHARED libww_debug.so.@INTERFACE@ WW_DEBUG)
_ww_target(ww_debug_static STATIC libww_debug.a WW_DEBUG)
unset(_ww_here)
unset(_ww_prefix)
