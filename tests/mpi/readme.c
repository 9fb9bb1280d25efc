/* Runs the C text of README.md, which .ci/mpi takes out of it: flow.c, its functions; use.c, the lines that use them;
 * and share.c, those for a mesh that only rank 0 has. Moves the parts of some meshes from table to table, and compares
 * each with the cut of the whole mesh: mpirun -n 4 readme
 *
 * The exit status is 0 only where every part was right. It is built with the sanitizers, which can't see what the archive
 * writes; so the linker puts a function before each call that writes a buffer, which looks whether all of it is there. */
#include "flow.c"

#include <sanitizer/asan_interface.h>
#include <string.h>

#define TREES 60
#define MOVES 6

static void
may_write (void *out, size_t bytes, const char *call)
{
  if (__asan_region_is_poisoned (out, bytes) != NULL) {
    fprintf (stderr, "%s: the buffer hasn't %lu bytes\n", call,
             (unsigned long) bytes);
    abort ();
  }
}

#define BEFORE(type, name, parameters, arguments, size)  \
  type __real_##name parameters;                         \
  type __wrap_##name parameters;                         \
  type                                                   \
  __wrap_##name parameters                               \
  {                                                      \
    may_write (out, size, #name);                        \
    return __real_##name arguments;                      \
  }

BEFORE (vejgodat_length, vejgodat_cut_part,
        (const uint8_t * mesh, size_t m, const uint8_t * table, size_t t,
         uint32_t rank, uint8_t * out, size_t n),
        (mesh, m, table, t, rank, out, n), n)
BEFORE (vejgodat_many, vejgodat_build_all,
        (const uint8_t * part, size_t p, const uint8_t * old_table, size_t o,
         const uint8_t * new_table, size_t t, uint32_t rank, uint32_t epoch,
         uint8_t * out, size_t n),
        (part, p, old_table, o, new_table, t, rank, epoch, out, n), n)
BEFORE (vejgodat_length, vejgodat_open_area,
        (const uint8_t * old_table, size_t o, const uint8_t * new_table,
         size_t t, uint32_t rank, uint32_t dimension, uint32_t epoch,
         uint8_t * out, size_t n),
        (old_table, o, new_table, t, rank, dimension, epoch, out, n), n)
BEFORE (vejgodat_ranks, vejgodat_receive_set,
        (const uint8_t * old_table, size_t o, const uint8_t * new_table,
         size_t t, uint32_t rank, uint32_t * out, size_t n),
        (old_table, o, new_table, t, rank, out, n), n * sizeof *out)
BEFORE (uint32_t, vejgodat_deliver,
        (uint8_t * out, size_t n, const uint8_t * message, size_t m),
        (out, n, message, m), n)
BEFORE (vejgodat_length, vejgodat_close_area,
        (const uint8_t * area, size_t a, uint8_t * out, size_t n),
        (area, a, out, n), n)

/* The first part of each rank, and the part that it becomes. */
static buffer
first_move (buffer mesh, buffer old_table, buffer new_table, uint32_t me,
            uint32_t epoch)
{
#include "use.c"
  return new_part;
}

/* The first part of each rank, where only rank 0 has the mesh. */
static buffer
share (buffer mesh, buffer table, uint32_t me, uint32_t P)
{
#include "share.c"
  return part;
}

/* The table of a step: each has other trees refined, so that ranks gain and lose trees; in one most ranks are empty. */
static void
make_table (uint32_t step, uint32_t P, buffer table)
{
  uint32_t            leaves[TREES], k;

  for (k = 0; k < TREES; ++k) {
    leaves[k] = step == 3 ? (k == 7 ? 1000000 : 1)
      : k / 10 == step ? 64 : 1 + k * step % 5;
  }
  must (vejgodat_table_from_leaves (P, leaves, TREES, ALL (table)).refusal);
}

static int
differ (buffer one, buffer other)
{
  return one.length != other.length
    || memcmp (one.bytes, other.bytes, one.length) != 0;
}

int
main (int argc, char **argv)
{
  buffer              mesh, tables[2], part, moved, expected;
  uint32_t            me, P, periodic, step, longer = 0, most;
  int                 rank, ranks, wrong = 0, any;

  MPI_Init (&argc, &argv);
  MPI_Comm_rank (MPI_COMM_WORLD, &rank);
  MPI_Comm_size (MPI_COMM_WORLD, &ranks);
  me = (uint32_t) rank;
  P = (uint32_t) ranks;
  mesh = room (VEJGODAT_OK, VEJGODAT_MESH_BYTES (TREES));
  tables[0] = room (VEJGODAT_OK, VEJGODAT_TABLE_BYTES (P));
  tables[1] = room (VEJGODAT_OK, VEJGODAT_TABLE_BYTES (P));
  for (periodic = 0; periodic < 8; ++periodic) {
    must (vejgodat_write_brick (3, 4, 5, periodic & 1, periodic & 2,
                                periodic & 4, ALL (mesh)).refusal);
    make_table (0, P, tables[0]);
    part = cut (mesh, tables[0], me);
    moved = share (mesh, tables[0], me, P);
    wrong += differ (part, moved);
    free (moved.bytes);
    for (step = 1; step <= MOVES; ++step) {
      make_table (step, P, tables[step % 2]);
      if (step == 1) {
        moved = first_move (mesh, tables[0], tables[1], me, MOVES + 1);
        expected = cut (mesh, tables[1], me);
        wrong += differ (moved, expected);
        free (expected.bytes);
        free (moved.bytes);
      }
      moved = move (part, tables[(step + 1) % 2], tables[step % 2], me, step);
      expected = cut (mesh, tables[step % 2], me);
      wrong += differ (moved, expected);
      longer += moved.length > part.length;
      free (expected.bytes);
      free (part.bytes);
      part = moved;
    }
    free (part.bytes);
  }
  free (tables[1].bytes);
  free (tables[0].bytes);
  free (mesh.bytes);
  MPI_Allreduce (&wrong, &any, 1, MPI_INT, MPI_SUM, MPI_COMM_WORLD);
  MPI_Allreduce (&longer, &most, 1, MPI_UINT32_T, MPI_SUM, MPI_COMM_WORLD);
  if (rank == 0) {
    printf ("ranks=%d wrong=%d longer=%u\n", ranks, any, (unsigned) most);
  }
  MPI_Finalize ();
  /* one rank has all trees from the beginning */
  return any == 0 && (most > 0 || ranks == 1) ? 0 : 1;
}
