# find_package(ndarray_layout): the targets ndarray_layout::ndarray_layout, which is shared, and ndarray_layout::static.
# They are found from this file on, so that the folder may be moved as a whole.
if(NOT TARGET ndarray_layout::ndarray_layout)
  get_filename_component(_nd_lib "${CMAKE_CURRENT_LIST_DIR}/../.." ABSOLUTE)
  get_filename_component(_nd_include "${CMAKE_CURRENT_LIST_DIR}/@INCLUDE_FROM_HERE@" ABSOLUTE)
  add_library(ndarray_layout::ndarray_layout SHARED IMPORTED)
  add_library(ndarray_layout::static STATIC IMPORTED)
  set_target_properties(ndarray_layout::ndarray_layout PROPERTIES IMPORTED_LOCATION "${_nd_lib}/libndarray_layout.so")
  set_target_properties(ndarray_layout::static PROPERTIES IMPORTED_LOCATION "${_nd_lib}/libndarray_layout.a")
  set_target_properties(ndarray_layout::ndarray_layout ndarray_layout::static PROPERTIES
    INTERFACE_INCLUDE_DIRECTORIES "${_nd_include}")
  unset(_nd_lib)
  unset(_nd_include)
endif()
