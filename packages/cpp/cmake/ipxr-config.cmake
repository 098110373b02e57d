include(${CMAKE_CURRENT_LIST_DIR}/ipxr-targets.cmake)
