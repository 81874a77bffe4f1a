# find_package(kundratu_pool) makes two targets: kundratu_pool::kundratu_pool is the static library, and kundratu_pool::shared the shared one.
if(NOT TARGET kundratu_pool::kundratu_pool)
  get_filename_component(kundratu_pool_libdir "${CMAKE_CURRENT_LIST_DIR}/../.." ABSOLUTE)
  find_path(kundratu_pool_INCLUDE_DIR kundratu_pool.h HINTS "${kundratu_pool_libdir}/../include" "${kundratu_pool_libdir}/../../include")
  add_library(kundratu_pool::kundratu_pool STATIC IMPORTED)
  set_target_properties(kundratu_pool::kundratu_pool PROPERTIES
    IMPORTED_LOCATION "${kundratu_pool_libdir}/libkundratu_pool.a"
    INTERFACE_INCLUDE_DIRECTORIES "${kundratu_pool_INCLUDE_DIR}")
  add_library(kundratu_pool::shared SHARED IMPORTED)
  set_target_properties(kundratu_pool::shared PROPERTIES
    IMPORTED_LOCATION "${kundratu_pool_libdir}/libkundratu_pool.so"
    INTERFACE_INCLUDE_DIRECTORIES "${kundratu_pool_INCLUDE_DIR}")
endif()
