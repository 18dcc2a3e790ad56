! The bay of six joints and five members, from Fortran: prints what its factor will need.
program bay
    use downskillet
    implicit none

    integer, parameter :: order = 6, members = 5
    integer(c_int32_t) :: pairs(2, members) = reshape([1, 4, 3, 2, 2, 5, 6, 3, 4, 6], [2, members])
    integer(c_int64_t) :: vertices(vertex_numbers, order), total
    integer(c_int32_t) :: entries(entry_numbers, members), links(order)

    if (downskillet_vertex_bytes() /= 8 * vertex_numbers .or. downskillet_entry_bytes() /= 4 * entry_numbers) &
        error stop "the library is not that of its module"
    call accept(downskillet_analyse(order, pairs, int(members, c_size_t), vertices, int(order, c_size_t), entries, &
        int(members, c_size_t), links, int(order, c_size_t), total))
    call show("parents", downskillet_parents)
    call show("places", downskillet_places)
    call show("first places", downskillet_first_places)
    call show("heights", downskillet_heights)
    call show("row counts", downskillet_row_counts)
    call show("column counts", downskillet_column_counts)
    print "(a, i0)", "total         ", total
    call show_structure(int(total) - order)

contains

    subroutine accept(refusal)
        integer(c_int32_t), intent(in) :: refusal
        if (refusal /= 0) then
            print "(a, 1x, i0)", "refused by", refusal
            stop 1
        end if
    end subroutine

    subroutine show(name, answer)
        character(*), intent(in) :: name
        procedure(copies) :: answer
        integer(c_int32_t) :: numbers(order)
        character(13) :: padded
        call accept(answer(vertices, int(order, c_size_t), numbers, int(order, c_size_t)))
        padded = name
        print "(a13, *(1x, i0))", padded, numbers
    end subroutine

    subroutine show_structure(row_count)
        integer, intent(in) :: row_count
        integer(c_int32_t) :: starts(order + 1), rows(row_count)
        call accept(downskillet_structure(order, vertices, int(order, c_size_t), entries, int(members, c_size_t), &
            links, int(order, c_size_t), starts, int(order + 1, c_size_t), rows, int(row_count, c_size_t)))
        print "(a, *(1x, i0))", "starts       ", starts
        print "(a, *(1x, i0))", "rows         ", rows
    end subroutine
end program
