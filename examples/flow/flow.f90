! flow.c in Fortran 2008: compile share/vejgodat/vejgodat.f90 first, and link as for C.
! Numbers that C has unsigned are here in the signed type of as many bits; bytes are given by c_loc.
program flow
  use vejgodat
  implicit none
  integer(c_int32_t), parameter :: P = 3, K = 24, epoch = 7
  type :: buffer
    integer(c_int8_t), pointer :: bytes(:)
  end type
  integer(c_int64_t), target :: old_table(0:P), new_table(0:P)
  integer(c_int32_t) :: leaves(K), rank, messages
  integer(c_size_t), parameter :: table_len = 8 * (P + 1)
  integer(c_size_t) :: at
  type(buffer) :: mesh, part, expected, out, area(0:P - 1)
  type(vejgodat_length_t) :: need
  type(vejgodat_many_t) :: many
  type(c_ptr) :: message

  ! the mesh, and the tables of two sets of leaf counts
  need = vejgodat_brick_length (4, 3, 2)
  mesh = room (need%refusal, need%length)
  need = vejgodat_write_brick (4, 3, 2, 1, 0, 0, c_loc (mesh%bytes), size (mesh%bytes, kind=c_size_t))
  call must (need%refusal)
  leaves = 1
  call table_of (leaves, old_table)
  leaves(:5) = 8
  call table_of (leaves, new_table)

  ! each rank opens its area
  do rank = 0, P - 1
    need = vejgodat_area_length (c_loc (old_table), table_len, c_loc (new_table), table_len, rank, 3)
    area(rank) = room (need%refusal, need%length)
    need = vejgodat_open_area (c_loc (old_table), table_len, c_loc (new_table), table_len, rank, 3, epoch, &
                               c_loc (area(rank)%bytes), size (area(rank)%bytes, kind=c_size_t))
    call must (need%refusal)
  end do
  ! each rank has its part, and sends a message to every rank that gets trees of it
  messages = 0
  do rank = 0, P - 1
    part = cut (old_table, rank)
    many = vejgodat_build_all_length (c_loc (part%bytes), size (part%bytes, kind=c_size_t), c_loc (old_table), table_len, &
                                      c_loc (new_table), table_len, rank)
    out = room (many%refusal, many%length)
    many = vejgodat_build_all (c_loc (part%bytes), size (part%bytes, kind=c_size_t), c_loc (old_table), table_len, &
                               c_loc (new_table), table_len, rank, epoch, c_loc (out%bytes), size (out%bytes, kind=c_size_t))
    call must (many%refusal)
    at = 0
    do
      message = vejgodat_next_message (c_loc (out%bytes), size (out%bytes, kind=c_size_t), at)
      if (.not. c_associated (message)) exit
      associate (to => area(vejgodat_message_receiver (message)))
        call must (vejgodat_deliver (c_loc (to%bytes), size (to%bytes, kind=c_size_t), message, vejgodat_message_bytes (message)))
      end associate
      messages = messages + 1
    end do
    deallocate (part%bytes, out%bytes)
  end do
  ! each rank closes its area: its part under the new table
  do rank = 0, P - 1
    part = room (vejgodat_ok, vejgodat_area_part_bytes (c_loc (area(rank)%bytes)))
    need = vejgodat_close_area (c_loc (area(rank)%bytes), size (area(rank)%bytes, kind=c_size_t), &
                                c_loc (part%bytes), size (part%bytes, kind=c_size_t))
    call must (need%refusal)
    expected = cut (new_table, rank)
    if (size (part%bytes) /= size (expected%bytes)) error stop 'a part is of another length'
    if (any (part%bytes /= expected%bytes)) error stop 'a part is another'
    deallocate (part%bytes, expected%bytes, area(rank)%bytes)
  end do
  deallocate (mesh%bytes)
  print '(i0, a, i0, a)', P, ' ranks, ', messages, ' messages, each part as cut'

contains

  subroutine must (refusal)
    integer(c_int32_t), intent(in) :: refusal
    if (refusal == vejgodat_ok) return
    print '(a, i0, 2a)', 'refusal ', refusal, ', ', vejgodat_words (refusal)
    error stop 1
  end subroutine

  function room (refusal, length) result (made)
    integer(c_int32_t), intent(in) :: refusal
    integer(c_int64_t), intent(in) :: length
    type(buffer) :: made
    call must (refusal)
    allocate (made%bytes(length))
  end function

  subroutine table_of (leaves, table)
    integer(c_int32_t), intent(in) :: leaves(:)
    integer(c_int64_t), target, intent(out) :: table(0:)
    type(vejgodat_length_t) :: written
    written = vejgodat_table_from_leaves (P, leaves, size (leaves, kind=c_size_t), c_loc (table), table_len)
    call must (written%refusal)
  end subroutine

  function cut (table, rank) result (made)
    integer(c_int64_t), target, intent(in) :: table(0:)
    integer(c_int32_t), intent(in) :: rank
    type(buffer) :: made
    type(vejgodat_length_t) :: need
    need = vejgodat_part_length (c_loc (mesh%bytes), size (mesh%bytes, kind=c_size_t), c_loc (table), table_len, rank)
    made = room (need%refusal, need%length)
    need = vejgodat_cut_part (c_loc (mesh%bytes), size (mesh%bytes, kind=c_size_t), c_loc (table), table_len, rank, &
                              c_loc (made%bytes), size (made%bytes, kind=c_size_t))
    call must (need%refusal)
  end function
end program
