! The Fortran module: refusals and their words, structs given and answered, lists, floats, numbers that C has unsigned.
program words
  use vejgodat
  implicit none
  integer(c_int64_t), target :: good(0:3) = [0, -4, -4, 8], bad(0:3) = [0, 3, 2, 8]
  integer(c_int64_t), target :: made(0:3)
  integer(c_int8_t), target :: mesh(8 + 64 * 8), part(32 + 64 * 8 + 40 * 8)
  character(kind=c_char), target :: text(100)
  character(len=100) :: fault_words
  integer(c_int32_t) :: list(8)
  integer :: i
  type(vejgodat_length_t) :: written
  type(vejgodat_range_t) :: range
  type(vejgodat_fault_t) :: fault
  type(vejgodat_ranks_t) :: ranks
  type(vejgodat_count_t) :: met
  type(vejgodat_neighbour_t) :: beside

  call expect (vejgodat_version () == vejgodat_version_constant, 'version')
  call expect (vejgodat_check_table (c_loc (good), 32_c_size_t) == vejgodat_ok, 'a good table')
  call expect (vejgodat_check_table (c_loc (bad), 32_c_size_t) == vejgodat_table, 'a damaged table')
  call expect (vejgodat_check_table (c_null_ptr, 0_c_size_t) == vejgodat_ranks, 'no table')
  call expect (vejgodat_words (vejgodat_table) == 'a table isn''t valid', 'the words of 3')
  call expect (vejgodat_words (-1_c_int32_t) == 'no refusal of this library', 'the words of any number')

  ! a struct is answered, and given by value
  fault = vejgodat_table_fault (c_loc (bad), 32_c_size_t)
  call expect (fault%refusal == 0 .and. fault%fault == 3 .and. fault%kind == vejgodat_fault_count .and. fault%at == 1, 'a fault')
  fault_words = ''
  do i = 1, int (vejgodat_write_fault (fault, c_loc (text), 100_c_size_t))
    fault_words(i:i) = text(i)
  end do
  call expect (fault_words == 'rank 1: negative count', 'the words of a fault')

  ! lists of numbers
  written = vejgodat_write_table (3, [0, 3, 3], 3_c_size_t, [4, 1, 5], 3_c_size_t, c_loc (made), 32_c_size_t)
  call expect (written%refusal == 0 .and. written%length == 32 .and. all (made == good), 'write_table')
  range = vejgodat_table_range (c_loc (good), 32_c_size_t, 1)
  call expect (range%first == 3 .and. range%count == 1, 'table_range')
  made = [0, 2, 5, 8]
  list = -7
  ranks = vejgodat_send_set (c_loc (good), 32_c_size_t, c_loc (made), 32_c_size_t, 0, list, 8_c_size_t)
  call expect (ranks%count == 2 .and. ranks%smallest == 0 .and. ranks%largest == 1 .and. all (list(:3) == [0, 1, -7]), 'send_set')
  ranks = vejgodat_receive_set (c_loc (good), 32_c_size_t, c_loc (bad), 32_c_size_t, 0, list, 8_c_size_t)
  call expect (ranks%refusal == vejgodat_table .and. ranks%count == 0, 'a set of damaged tables')

  ! floats, and numbers above the signed ones
  written = vejgodat_write_brick (2, 2, 2, 0, 0, 0, c_loc (mesh), size (mesh, kind=c_size_t))
  call expect (written%refusal == 0 .and. vejgodat_check_mesh (c_loc (mesh), size (mesh, kind=c_size_t)) == 0, 'a brick')
  written = vejgodat_cut_part (c_loc (mesh), size (mesh, kind=c_size_t), c_loc (good), 32_c_size_t, 1, &
                               c_loc (part), size (part, kind=c_size_t))
  call expect (written%refusal == 0, 'cut_part')
  met = vejgodat_trees_at_point (c_loc (part), int (written%length, c_size_t), c_loc (good), 32_c_size_t, 1, &
                                 0.0_c_float, 0.0_c_float, 0.0_c_float, list, 8_c_size_t)
  call expect (met%refusal == 0 .and. met%count == 1 .and. list(1) == 0, 'a probe that meets')
  met = vejgodat_trees_below (c_loc (part), int (written%length, c_size_t), c_loc (good), 32_c_size_t, 1, &
                              0, -0.5_c_float, list, 8_c_size_t)
  call expect (met%refusal == 0 .and. met%count == 0, 'a probe that meets nothing')
  beside = vejgodat_neighbour_of (c_loc (part), int (written%length, c_size_t), c_loc (good), 32_c_size_t, 1, 0, 0)
  call expect (beside%kind == vejgodat_kind_ghost .and. beside%index == 2 .and. beside%face == 1, 'neighbour_of')
  call vejgodat_mesh_set_tree (c_loc (mesh), 0, vejgodat_tetrahedron)
  call expect (vejgodat_number_at (c_loc (mesh(8 + 8 + 4 * 5 + 1))) == vejgodat_unused, 'the mark of an unused face')

contains

  subroutine expect (as_meant, what)
    logical, intent(in) :: as_meant
    character(len=*), intent(in) :: what
    if (as_meant) return
    print '(2a)', 'words.f90: ', what
    error stop 1
  end subroutine
end program
