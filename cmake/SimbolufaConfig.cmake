# find_package(Simbolufa) gives the target Simbolufa::simbolufa: the library and its headers. It is found from where this
# file stands, so the folder may be moved.
if(NOT TARGET Simbolufa::simbolufa)
    get_filename_component(_simbolufa_prefix "${CMAKE_CURRENT_LIST_DIR}/../../.." ABSOLUTE)
    add_library(Simbolufa::simbolufa STATIC IMPORTED)
    set_target_properties(Simbolufa::simbolufa PROPERTIES
        IMPORTED_LOCATION "${_simbolufa_prefix}/lib/libsimbolufa.a"
        INTERFACE_INCLUDE_DIRECTORIES "${_simbolufa_prefix}/include")
    unset(_simbolufa_prefix)
endif()
