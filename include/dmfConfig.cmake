# For find_package(dmf): the imported target dmf::dmf, the shared library, and dmf::static if libdmf.a is beside it. The
# paths are found from this file's own, lib/cmake/dmf or lib/TRIPLE/cmake/dmf below a prefix, so that the prefix may be moved.
get_filename_component(_dmf_here "${CMAKE_CURRENT_LIST_DIR}" REALPATH)
get_filename_component(_dmf_libraries "${_dmf_here}/../.." ABSOLUTE)
set(_dmf_headers "")
foreach(_dmf_above IN ITEMS .. ../..)
  get_filename_component(_dmf_include "${_dmf_libraries}/${_dmf_above}/include" ABSOLUTE)
  if(NOT _dmf_headers AND EXISTS "${_dmf_include}/dmf.h")
    set(_dmf_headers "${_dmf_include}")
  endif()
endforeach()

set(dmf_FOUND TRUE)
if(NOT _dmf_headers)
  set(dmf_FOUND FALSE)
  set(dmf_NOT_FOUND_MESSAGE "dmf.h is not in the folder include/ above ${_dmf_libraries}")
elseif(NOT EXISTS "${_dmf_libraries}/libdmf.so.0")
  set(dmf_FOUND FALSE)
  set(dmf_NOT_FOUND_MESSAGE "libdmf.so.0 is not in ${_dmf_libraries}")
else()
  if(NOT TARGET dmf::dmf)
    add_library(dmf::dmf SHARED IMPORTED)
    set_target_properties(dmf::dmf PROPERTIES
      IMPORTED_LOCATION "${_dmf_libraries}/libdmf.so.0"
      IMPORTED_SONAME libdmf.so.0
      INTERFACE_INCLUDE_DIRECTORIES "${_dmf_headers}")
  endif()
  if(NOT TARGET dmf::static AND EXISTS "${_dmf_libraries}/libdmf.a")
    add_library(dmf::static STATIC IMPORTED)
    set_target_properties(dmf::static PROPERTIES
      IMPORTED_LOCATION "${_dmf_libraries}/libdmf.a"
      IMPORTED_LINK_INTERFACE_LANGUAGES C
      INTERFACE_INCLUDE_DIRECTORIES "${_dmf_headers}")
  endif()
endif()
unset(_dmf_here)
unset(_dmf_libraries)
unset(_dmf_headers)
unset(_dmf_above)
unset(_dmf_include)
