# find_package(zeppolecape) defines the target zeppolecape::zeppolecape.
if(NOT TARGET zeppolecape::zeppolecape)
    get_filename_component(zeppolecape_prefix "${CMAKE_CURRENT_LIST_DIR}/../../.." ABSOLUTE)
    add_library(zeppolecape::zeppolecape STATIC IMPORTED)
    set_target_properties(zeppolecape::zeppolecape PROPERTIES
        IMPORTED_LOCATION "${zeppolecape_prefix}/lib/libzeppolecape.a"
        INTERFACE_INCLUDE_DIRECTORIES "${zeppolecape_prefix}/include")
    unset(zeppolecape_prefix)
endif()
