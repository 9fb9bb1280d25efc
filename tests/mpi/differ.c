/* Calls examples/mpi/exchange.c with one rank that differs from the others: mpirun -n P differ WHAT
 *
 * WHAT is what the last rank has different: "old" or "new", a table; "epoch"; "length", tables of one rank less; or
 * "part", a part of 8 bytes. With "all" the ranks agree on tables of one rank less than there are, with "nothing" all is
 * well. Only then the exit status is 0; else the run must end with words on standard error, and not hang. */
#include "../../examples/mpi/exchange.h"

#include <stdio.h>
#include <stdlib.h>
#include <string.h>

#define TREES 24

/* Equal shares of the trees, the first rank with some more. */
static void
make_table (uint32_t ranks, uint32_t more, uint8_t * table)
{
  uint32_t            leaves[TREES], k;

  for (k = 0; k < TREES; ++k) {
    leaves[k] = k < TREES / 2 ? 1 : 1 + more;
  }
  must (vejgodat_table_from_leaves (ranks, leaves, TREES, table,
                                    VEJGODAT_TABLE_BYTES (ranks)).refusal,
        "vejgodat_table_from_leaves");
}

int
main (int argc, char **argv)
{
  const char         *what = argc == 2 ? argv[1] : "nothing";
  uint8_t             mesh[VEJGODAT_MESH_BYTES (TREES)];
  uint8_t            *old_table, *new_table;
  uint32_t            ranks, epoch = 7;
  size_t              table_len;
  vejgodat_length     length;
  mesh_part           part;
  int                 size, rank, last;

  MPI_Init (&argc, &argv);
  MPI_Comm_size (MPI_COMM_WORLD, &size);
  MPI_Comm_rank (MPI_COMM_WORLD, &rank);
  last = rank == size - 1;
  ranks = (uint32_t) size;
  table_len = VEJGODAT_TABLE_BYTES (size);
  old_table = room (table_len);
  new_table = room (table_len);
  make_table (ranks, 0, old_table);
  make_table (ranks, 1, new_table);
  must (vejgodat_write_brick (2, 3, 4, 0, 0, 0, mesh, sizeof mesh).refusal,
        "vejgodat_write_brick");
  part.bytes = room (VEJGODAT_PART_BYTES (TREES, 0));
  length = vejgodat_cut_part (mesh, sizeof mesh, old_table, table_len,
                              (uint32_t) rank, part.bytes,
                              VEJGODAT_PART_BYTES (TREES, 0));
  must (length.refusal, "vejgodat_cut_part");
  part.length = (size_t) length.length;

  if (last && !strcmp (what, "old")) {
    make_table (ranks, 3, old_table);
  }
  if (last && !strcmp (what, "new")) {
    make_table (ranks, 3, new_table);
  }
  if (last && !strcmp (what, "epoch")) {
    ++epoch;
  }
  if (!strcmp (what, "all") || (last && !strcmp (what, "length"))) {
    table_len = VEJGODAT_TABLE_BYTES (size - 1);
    make_table (ranks - 1, 0, old_table);
    make_table (ranks - 1, 1, new_table);
  }
  if (last && !strcmp (what, "part")) {
    /* in memory of its own, so that a look beyond it is seen */
    free (part.bytes);
    part.length = 8;
    part.bytes = room (part.length);
    memset (part.bytes, 0, part.length);
  }
  exchange (MPI_COMM_WORLD, epoch, old_table, new_table, table_len, &part);
  free (part.bytes);
  free (new_table);
  free (old_table);
  MPI_Finalize ();
  return 0;
}
