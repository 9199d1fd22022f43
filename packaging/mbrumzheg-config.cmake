# The static library as the target mbrumzheg::mbrumzheg, wherever the tree that holds this file stands.
if(NOT TARGET mbrumzheg::mbrumzheg)
  get_filename_component(mbrumzheg_prefix "${CMAKE_CURRENT_LIST_DIR}/../../.." ABSOLUTE)
  add_library(mbrumzheg::mbrumzheg STATIC IMPORTED)
  set_target_properties(mbrumzheg::mbrumzheg PROPERTIES
    IMPORTED_LOCATION "${mbrumzheg_prefix}/lib/libmbrumzheg.a"
    IMPORTED_LINK_INTERFACE_LANGUAGES C
    INTERFACE_INCLUDE_DIRECTORIES "${mbrumzheg_prefix}/include")
  unset(mbrumzheg_prefix)
endif()
