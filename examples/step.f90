! Steps and runs of states of document 01 with the proved core, from Fortran: it prints the same as step.c.
! From the repository, after `install/build basin`:
!
!   gfortran -std=f2018 -Wall -Wextra -Werror -J target examples/step.f90 \
!       target/staticlib/libbasin.a -o target/step_f90
!   target/step_f90 | diff - examples/step.out

! The functions of basin.h that this program calls. A number that is passed has `value`; a list is passed as it is, with its
! length after it. Fortran has no numbers without a sign: kind and barriers are bytes, so 200 would be -56 here, and refused.
module basin
    use iso_c_binding, only: c_size_t, c_int8_t, c_int64_t
    implicit none
    interface
        function basin_step(w, n, kind, g, c, r, h, h_len, b, b_len, u, u_len, v, v_len, barriers, barriers_len, &
                            inflow, inflow_len, work, work_len, answer) bind(c) result(refusal)
            import :: c_size_t, c_int8_t, c_int64_t
            integer(c_size_t), value :: w, n, h_len, b_len, u_len, v_len, barriers_len, inflow_len, work_len
            integer(c_int8_t), value :: kind
            integer(c_int64_t), value :: g, c, r
            integer(c_int64_t), intent(inout) :: h(*), u(*), v(*), work(*)
            integer(c_int64_t), intent(in) :: b(*), inflow(*)
            integer(c_int8_t), intent(in) :: barriers(*)
            integer(c_int64_t), intent(out) :: answer(8)
            integer(c_int64_t) :: refusal
        end function
        function basin_run(w, n, kind, g, c, r, h, h_len, b, b_len, u, u_len, v, v_len, barriers, barriers_len, &
                           inflow, inflow_len, steps, work, work_len, answer) bind(c) result(refusal)
            import :: c_size_t, c_int8_t, c_int64_t
            integer(c_size_t), value :: w, n, h_len, b_len, u_len, v_len, barriers_len, inflow_len, work_len
            integer(c_int8_t), value :: kind
            integer(c_int64_t), value :: g, c, r, steps
            integer(c_int64_t), intent(inout) :: h(*), u(*), v(*), work(*)
            integer(c_int64_t), intent(in) :: b(*), inflow(*)
            integer(c_int8_t), intent(in) :: barriers(*)
            integer(c_int64_t), intent(out) :: answer(8)
            integer(c_int64_t) :: refusal
        end function
        function basin_total_depth(w, n, kind, g, c, r, h, h_len, b, b_len, u, u_len, v, v_len, barriers, barriers_len, &
                                   total, answer) bind(c) result(refusal)
            import :: c_size_t, c_int8_t, c_int64_t
            integer(c_size_t), value :: w, n, h_len, b_len, u_len, v_len, barriers_len
            integer(c_int8_t), value :: kind
            integer(c_int64_t), value :: g, c, r
            integer(c_int64_t), intent(in) :: h(*), b(*), u(*), v(*)
            integer(c_int8_t), intent(in) :: barriers(*)
            integer(c_int64_t), intent(inout) :: total
            integer(c_int64_t), intent(out) :: answer(8)
            integer(c_int64_t) :: refusal
        end function
    end interface
end module

program step
    use iso_c_binding, only: c_size_t, c_int8_t, c_int64_t
    use basin
    implicit none

    ! A state of up to two cells, the inflow of each, and work space. A field h(0:w-1, 0:n-1) has column i of row j at h(i, j):
    ! Fortran's order is the core's. Here there is one row alone, so that h(i) will do.
    type state
        integer(c_size_t) :: w = 1, n = 1
        integer(c_int8_t) :: kind = 0
        integer(c_int64_t) :: g = 9810, c = 0, r = 1000
        integer(c_int64_t) :: h(0:1) = 0, b(0:1) = 0, u(0:1) = 0, v(0:1) = 0
        integer(c_int8_t) :: barriers(0:1) = 0
        integer(c_int64_t) :: inflow(0:1) = 0, work(16) = 0
    end type
    type(state) :: example_2, example_4, s

    example_2%c = 10
    example_2%h(0) = 2000
    example_2%u(0) = 100
    example_2%v(0) = -50
    example_4%w = 2
    example_4%r = 100000
    example_4%h = [2000, 3000]
    example_4%u(0) = 10

    ! Examples 3 and 5 are examples 2 and 4 stepped.
    s = example_2
    call print_step('example 3', s, 8_c_size_t)
    s = example_4
    call print_step('example 5', s, 16_c_size_t)

    ! A barrier closes the west edge of the second cell, where u stays 0.
    s = example_4
    s%barriers(1) = 1
    call print_step('jetty', s, 16_c_size_t)
    call print_total_depth('jetty', s)
    s%u(1) = 5
    call print_step('jetty, a current through it', s, 16_c_size_t)
    s%barriers(1) = 4
    call print_step('jetty, a byte above 3', s, 16_c_size_t)

    s = example_2
    call print_step('example 9, work space of 7', s, 7_c_size_t)
    call print_run('example 9, run of 0', s, 0_c_int64_t)
    call print_run('example 9, run of 10,001', s, 10001_c_int64_t)

    ! 7 mm come in and 2 go out with each step.
    s = example_4
    s%inflow = [7, -2]
    call print_total_depth('inlet, before', s)
    call print_run('inlet, run of 100', s, 100_c_int64_t)
    call print_total_depth('inlet, after', s)
    call print_state('inlet', s)

    ! The water falls until a step would leave less than 1,000 mm.
    s = example_4
    s%inflow = -100
    call print_run('drain, run of 100', s, 100_c_int64_t)
    call print_step('drain, one step more', s, 16_c_size_t)
    call print_total_depth('drain, after', s)

contains

    subroutine print_state(name, s)
        character(*), intent(in) :: name
        type(state), intent(in) :: s
        integer(c_size_t) :: k
        do k = 0, s%w*s%n - 1
            print '(2a, i0, 3(a, i0))', name, ' cell ', k, ': h ', s%h(k), ' u ', s%u(k), ' v ', s%v(k)
        end do
    end subroutine

    ! A refusal and its values, on one line with the name before it and the steps done after it.
    subroutine print_answer(name, answer, of_run)
        character(*), intent(in) :: name
        integer(c_int64_t), intent(in) :: answer(8)
        logical, intent(in) :: of_run
        integer :: next
        next = 2
        write (*, '(2a)', advance='no') name, ':'
        if (answer(1) /= 0) write (*, '(a, i0)', advance='no') ' refused ', answer(1)
        if (answer(1) == 6) then
            write (*, '(a, i0)', advance='no') ' pass ', answer(next)
            next = next + 1
        end if
        if (answer(1) >= 4 .and. answer(1) <= 6) then
            write (*, '(2(a, i0))', advance='no') ' field ', answer(next), ' cell ', answer(next + 1)
            next = next + 2
        end if
        if (of_run .and. (answer(1) == 0 .or. answer(1) == 6)) write (*, '(a, i0)', advance='no') ' done ', answer(next)
        print '(a)', ''
    end subroutine

    subroutine print_step(name, s, work_len)
        character(*), intent(in) :: name
        type(state), intent(inout) :: s
        integer(c_size_t), intent(in) :: work_len
        integer(c_size_t) :: cells
        integer(c_int64_t) :: answer(8)
        cells = s%w*s%n
        if (basin_step(s%w, s%n, s%kind, s%g, s%c, s%r, s%h, cells, s%b, cells, s%u, cells, s%v, cells, &
                       s%barriers, cells, s%inflow, cells, s%work, work_len, answer) == 0) then
            call print_state(name, s)
        else
            call print_answer(name, answer, of_run=.false.)
        end if
    end subroutine

    subroutine print_run(name, s, steps)
        character(*), intent(in) :: name
        type(state), intent(inout) :: s
        integer(c_int64_t), intent(in) :: steps
        integer(c_size_t) :: cells
        integer(c_int64_t) :: answer(8), refusal
        cells = s%w*s%n
        refusal = basin_run(s%w, s%n, s%kind, s%g, s%c, s%r, s%h, cells, s%b, cells, s%u, cells, s%v, cells, &
                            s%barriers, cells, s%inflow, cells, steps, s%work, 8*cells, answer)
        if (refusal /= answer(1)) print '(a)', 'the number returned is not the one told'
        call print_answer(name, answer, of_run=.true.)
    end subroutine

    subroutine print_total_depth(name, s)
        character(*), intent(in) :: name
        type(state), intent(in) :: s
        integer(c_size_t) :: cells
        integer(c_int64_t) :: answer(8), total
        total = 0
        cells = s%w*s%n
        if (basin_total_depth(s%w, s%n, s%kind, s%g, s%c, s%r, s%h, cells, s%b, cells, s%u, cells, s%v, cells, &
                              s%barriers, cells, total, answer) == 0) &
            print '(2a, i0)', name, ': total depth ', total
    end subroutine
end program
