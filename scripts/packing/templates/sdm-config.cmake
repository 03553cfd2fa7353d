# sdm::sdm is the shared library, sdm::static the static one; sdm::calls and sdm::calls-static are those of the commands, where
# they are installed.
get_filename_component(_sdm_libraries "${CMAKE_CURRENT_LIST_DIR}/../.." ABSOLUTE)
get_filename_component(_sdm_headers "${_sdm_libraries}/@TO_HEADERS@" ABSOLUTE)
if(NOT TARGET sdm::sdm)
  add_library(sdm::sdm SHARED IMPORTED)
  set_target_properties(sdm::sdm PROPERTIES
    IMPORTED_LOCATION "${_sdm_libraries}/@SHARED_NAME@"
    IMPORTED_SONAME "@SHARED_NAME@"
    INTERFACE_INCLUDE_DIRECTORIES "${_sdm_headers}")
  add_library(sdm::static STATIC IMPORTED)
  set_target_properties(sdm::static PROPERTIES
    IMPORTED_LOCATION "${_sdm_libraries}/libsdm.a"
    INTERFACE_INCLUDE_DIRECTORIES "${_sdm_headers}")
endif()
if(EXISTS "${_sdm_libraries}/libsdm-calls.so" AND NOT TARGET sdm::calls)
  add_library(sdm::calls SHARED IMPORTED)
  set_target_properties(sdm::calls PROPERTIES
    IMPORTED_LOCATION "${_sdm_libraries}/libsdm-calls.so"
    INTERFACE_INCLUDE_DIRECTORIES "${_sdm_headers}")
  add_library(sdm::calls-static STATIC IMPORTED)
  set_target_properties(sdm::calls-static PROPERTIES
    IMPORTED_LOCATION "${_sdm_libraries}/libsdm-calls.a"
    INTERFACE_INCLUDE_DIRECTORIES "${_sdm_headers}")
endif()
unset(_sdm_libraries)
unset(_sdm_headers)
