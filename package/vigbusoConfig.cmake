# find_package(vigbuso) gives the target vigbuso::vigbuso. The folder may stand anywhere.
if(NOT (CMAKE_SYSTEM_NAME STREQUAL "Linux" AND CMAKE_SYSTEM_PROCESSOR MATCHES "^(x86_64|amd64|AMD64)$"))
  set(vigbuso_FOUND FALSE)
  set(vigbuso_NOT_FOUND_MESSAGE
      "libvigbuso.a links only into programs for x86-64 Linux, not for ${CMAKE_SYSTEM_NAME} on ${CMAKE_SYSTEM_PROCESSOR}")
  return()
endif()

if(NOT TARGET vigbuso::vigbuso)
  get_filename_component(_vigbuso_prefix "${CMAKE_CURRENT_LIST_DIR}/../../.." ABSOLUTE)
  add_library(vigbuso::vigbuso STATIC IMPORTED)
  set_target_properties(vigbuso::vigbuso PROPERTIES
    IMPORTED_LINK_INTERFACE_LANGUAGES C
    IMPORTED_LOCATION "${_vigbuso_prefix}/lib/libvigbuso.a"
    INTERFACE_INCLUDE_DIRECTORIES "${_vigbuso_prefix}/include")
  unset(_vigbuso_prefix)
endif()
