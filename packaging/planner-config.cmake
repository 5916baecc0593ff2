# find_package(planner 7) gives the target planner::planner: the library with its headers. It stands in PREFIX/lib/cmake/planner, wherever PREFIX is.
get_filename_component(_planner_prefix "${CMAKE_CURRENT_LIST_DIR}/../../.." ABSOLUTE)
foreach(_planner_file lib/libplanner.a include/planner.h)
    if(NOT EXISTS "${_planner_prefix}/${_planner_file}")
        set(planner_FOUND FALSE)
        set(planner_NOT_FOUND_MESSAGE "${_planner_prefix}/${_planner_file} is not there")
    endif()
endforeach()
if(NOT TARGET planner::planner AND NOT DEFINED planner_NOT_FOUND_MESSAGE)
    add_library(planner::planner STATIC IMPORTED)
    set_target_properties(planner::planner PROPERTIES
        IMPORTED_LINK_INTERFACE_LANGUAGES C
        IMPORTED_LOCATION "${_planner_prefix}/lib/libplanner.a"
        INTERFACE_INCLUDE_DIRECTORIES "${_planner_prefix}/include")
endif()
unset(_planner_file)
unset(_planner_prefix)
