# find_package(fildwuk): the target fildwuk::fildwuk is the static library, fildwuk::shared the shared one. Their folders are found from this file's.
get_filename_component(_fildwuk_prefix "${CMAKE_CURRENT_LIST_DIR}/../../.." ABSOLUTE)
if(NOT TARGET fildwuk::fildwuk)
  add_library(fildwuk::fildwuk STATIC IMPORTED)
  set_target_properties(fildwuk::fildwuk PROPERTIES
    IMPORTED_LOCATION "${_fildwuk_prefix}/lib/libfildwuk.a"
    INTERFACE_INCLUDE_DIRECTORIES "${_fildwuk_prefix}/include")
  add_library(fildwuk::shared SHARED IMPORTED)
  set_target_properties(fildwuk::shared PROPERTIES
    IMPORTED_LOCATION "${_fildwuk_prefix}/lib/libfildwuk.so.@VERSION@"
    IMPORTED_SONAME "libfildwuk.so.@MAJOR@"
    INTERFACE_INCLUDE_DIRECTORIES "${_fildwuk_prefix}/include")
endif()
unset(_fildwuk_prefix)
