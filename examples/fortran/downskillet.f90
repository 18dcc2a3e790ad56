! The calls of include/downskillet.h, which says what each does, for Fortran. Pairs are the columns of an array of two
! rows, and records the columns of arrays of plain integers. The first number of an entry is, on little-endian machines,
! its first vertex plus 65536 times its second.
module downskillet
    use, intrinsic :: iso_c_binding
    implicit none

    ! 64-bit numbers a vertex record, and 32-bit numbers an entry record
    integer, parameter :: vertex_numbers = 5, entry_numbers = 2

    interface
        function downskillet_vertex_bytes() bind(c) result(bytes)
            import :: c_size_t
            integer(c_size_t) :: bytes
        end function

        function downskillet_entry_bytes() bind(c) result(bytes)
            import :: c_size_t
            integer(c_size_t) :: bytes
        end function

        function downskillet_analyse(order, pairs, pair_count, vertices, vertex_count, entries, entry_count, &
                links, link_count, total) bind(c) result(refusal)
            import :: c_int32_t, c_int64_t, c_size_t, vertex_numbers, entry_numbers
            integer(c_int32_t), value :: order
            integer(c_int32_t), intent(in) :: pairs(2, *)
            integer(c_size_t), value :: pair_count, vertex_count, entry_count, link_count
            integer(c_int64_t), intent(inout) :: vertices(vertex_numbers, *)
            integer(c_int32_t), intent(inout) :: entries(entry_numbers, *), links(*)
            integer(c_int64_t), intent(inout) :: total
            integer(c_int32_t) :: refusal
        end function

        function downskillet_analyse_entries(order, vertices, vertex_count, entries, entry_count, links, &
                link_count, total) bind(c) result(refusal)
            import :: c_int32_t, c_int64_t, c_size_t, vertex_numbers, entry_numbers
            integer(c_int32_t), value :: order
            integer(c_size_t), value :: vertex_count, entry_count, link_count
            integer(c_int64_t), intent(inout) :: vertices(vertex_numbers, *)
            integer(c_int32_t), intent(inout) :: entries(entry_numbers, *), links(*)
            integer(c_int64_t), intent(inout) :: total
            integer(c_int32_t) :: refusal
        end function

        function downskillet_structure(order, vertices, vertex_count, entries, entry_count, links, link_count, &
                starts, start_count, rows, row_count) bind(c) result(refusal)
            import :: c_int32_t, c_int64_t, c_size_t, vertex_numbers, entry_numbers
            integer(c_int32_t), value :: order
            integer(c_size_t), value :: vertex_count, entry_count, link_count, start_count, row_count
            integer(c_int64_t), intent(inout) :: vertices(vertex_numbers, *)
            integer(c_int32_t), intent(inout) :: entries(entry_numbers, *), links(*), starts(*), rows(*)
            integer(c_int32_t) :: refusal
        end function
    end interface

    abstract interface
        function copies(vertices, order, numbers, length) bind(c) result(refusal)
            import :: c_int32_t, c_int64_t, c_size_t, vertex_numbers
            integer(c_int64_t), intent(in) :: vertices(vertex_numbers, *)
            integer(c_size_t), value :: order, length
            integer(c_int32_t), intent(inout) :: numbers(*)
            integer(c_int32_t) :: refusal
        end function
    end interface

    procedure(copies), bind(c) :: downskillet_parents, downskillet_places, downskillet_first_places
    procedure(copies), bind(c) :: downskillet_heights, downskillet_row_counts, downskillet_column_counts
end module
