# The static library, as the target zenkorv::zenkorv.
if(NOT TARGET zenkorv::zenkorv)
    get_filename_component(zenkorv_prefix "${CMAKE_CURRENT_LIST_DIR}/../../.." ABSOLUTE)
    add_library(zenkorv::zenkorv STATIC IMPORTED)
    set_target_properties(zenkorv::zenkorv PROPERTIES
        IMPORTED_LOCATION "${zenkorv_prefix}/lib/libzenkorv.a"
        IMPORTED_LINK_INTERFACE_LANGUAGES C
        INTERFACE_INCLUDE_DIRECTORIES "${zenkorv_prefix}/include")
    unset(zenkorv_prefix)
endif()
