# The library of osdp for CMake: find_package(osdp) gives the target osdp::osdp, a static library with its header. The places go by that of this file.
get_filename_component(osdp_prefix "${CMAKE_CURRENT_LIST_DIR}/../../.." ABSOLUTE)
if(NOT TARGET osdp::osdp)
  add_library(osdp::osdp STATIC IMPORTED)
  set_target_properties(osdp::osdp PROPERTIES
    IMPORTED_LOCATION "${osdp_prefix}/lib/libosdp.a"
    INTERFACE_INCLUDE_DIRECTORIES "${osdp_prefix}/include")
endif()
unset(osdp_prefix)
