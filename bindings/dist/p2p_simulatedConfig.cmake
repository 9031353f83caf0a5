# p2p_simulated::static and p2p_simulated::shared
get_filename_component(p2p_simulated_prefix "${CMAKE_CURRENT_LIST_DIR}/../../.." ABSOLUTE)
if(NOT TARGET p2p_simulated::static)
    add_library(p2p_simulated::static STATIC IMPORTED)
    set_target_properties(p2p_simulated::static PROPERTIES
        IMPORTED_LOCATION "${p2p_simulated_prefix}/lib/libp2p_simulated.a"
        INTERFACE_INCLUDE_DIRECTORIES "${p2p_simulated_prefix}/include")
    add_library(p2p_simulated::shared SHARED IMPORTED)
    set_target_properties(p2p_simulated::shared PROPERTIES
        IMPORTED_LOCATION "${p2p_simulated_prefix}/lib/libp2p_simulated.so"
        IMPORTED_SONAME "libp2p_simulated.so.0"
        INTERFACE_INCLUDE_DIRECTORIES "${p2p_simulated_prefix}/include")
endif()
