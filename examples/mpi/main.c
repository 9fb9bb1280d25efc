/* A box of hexahedra, shared out by leaf counts that change from step to step: mpirun -n 4 ./repartition
 *
 * Every rank makes the whole mesh once, cuts out its part and forgets the rest. From then on it has its part alone, and
 * each step moves the parts to the table of the new leaf counts. */
#include "exchange.h"

#include <assert.h>
#include <stdio.h>
#include <stdlib.h>

#define SIDE 8
#define TREES (SIDE * SIDE * SIDE)
#define STEPS 5

/* The whole mesh: faces 0 and 1 look along the first axis, 2 and 3 along the second, 4 and 5 along the third. */
static void
make_box (uint8_t * mesh)
{
  static const uint32_t stride[3] = { 1, SIDE, SIDE * SIDE };
  uint32_t            k, axis;

  vejgodat_mesh_set_header (mesh, 3, TREES);
  for (k = 0; k < TREES; ++k) {
    vejgodat_mesh_set_tree (mesh, k, VEJGODAT_HEXAHEDRON);
    /* tree data: whatever the solver wants to go with its trees */
    vejgodat_put_number (vejgodat_mesh_writable_data (mesh, k), k);
  }
  /* each link once, from the lower tree; what isn't linked stays the boundary */
  for (k = 0; k < TREES; ++k) {
    for (axis = 0; axis < 3; ++axis) {
      if (k / stride[axis] % SIDE < SIDE - 1) {
        vejgodat_mesh_set_link (mesh, k, 2 * axis + 1, k + stride[axis],
                                2 * axis, 0);
      }
    }
  }
}

/* The table for a step's leaf counts: one layer of trees is refined. A solver counts the leaves that it has of each tree
 * and adds the counts over all ranks; one whose forest is partitioned already writes that partition's table instead, as
 * table_of in ../p4est/forest.c. One rank makes the table for all. */
static void
make_table (int step, int ranks, uint8_t * table)
{
  static uint32_t     leaves[TREES];
  uint32_t            k;
  int                 rank;

  MPI_Comm_rank (MPI_COMM_WORLD, &rank);
  if (rank == 0) {
    for (k = 0; k < TREES; ++k) {
      leaves[k] = (int) (k / (SIDE * SIDE)) == step ? 64 : 1;
    }
    must (vejgodat_table_from_leaves ((uint32_t) ranks, leaves, TREES, table,
                                      VEJGODAT_TABLE_BYTES (ranks)).refusal,
          "vejgodat_table_from_leaves");
  }
  MPI_Bcast (table, (int) VEJGODAT_TABLE_BYTES (ranks), MPI_BYTE, 0,
             MPI_COMM_WORLD);
}

int
main (int argc, char **argv)
{
  int                 ranks, rank, step, data_ok = 1, all_ok;
  size_t              table_len;
  uint8_t            *mesh, *old_table, *new_table, *other;
  uint32_t            i, counts[2], most[2];
  vejgodat_length     length;
  mesh_part           part;

  MPI_Init (&argc, &argv);
  MPI_Comm_size (MPI_COMM_WORLD, &ranks);
  MPI_Comm_rank (MPI_COMM_WORLD, &rank);
  table_len = VEJGODAT_TABLE_BYTES (ranks);
  old_table = room (table_len);
  new_table = room (table_len);
  mesh = room (VEJGODAT_MESH_BYTES (TREES));

  make_box (mesh);
  must_be_sound (vejgodat_mesh_fault (mesh, VEJGODAT_MESH_BYTES (TREES)),
                 "the box");
  make_table (0, ranks, old_table);
  length = vejgodat_part_length (mesh, VEJGODAT_MESH_BYTES (TREES),
                                 old_table, table_len, (uint32_t) rank);
  must (length.refusal, "vejgodat_part_length");
  part.length = (size_t) length.length;
  part.bytes = room (part.length);
  assert (apart (part.bytes, part.length, mesh, VEJGODAT_MESH_BYTES (TREES)));
  length = vejgodat_cut_part (mesh, VEJGODAT_MESH_BYTES (TREES), old_table,
                              table_len, (uint32_t) rank, part.bytes,
                              part.length);
  must (length.refusal, "vejgodat_cut_part");
  free (mesh);

  for (step = 1; step <= STEPS; ++step) {
    make_table (step, ranks, new_table);
    exchange (MPI_COMM_WORLD, (uint32_t) step, old_table, new_table,
              table_len, &part);
    other = old_table;
    old_table = new_table;
    new_table = other;

    counts[0] = vejgodat_part_trees (part.bytes);
    counts[1] = vejgodat_part_ghosts (part.bytes);
    for (i = 0; i < counts[0]; ++i) {
      data_ok &= vejgodat_number_at (vejgodat_part_data (part.bytes, i))
        == vejgodat_part_number (part.bytes, i);
    }
    MPI_Reduce (counts, most, 2, MPI_UINT32_T, MPI_MAX, 0, MPI_COMM_WORLD);
    if (rank == 0) {
      printf ("step %d: a rank has up to %u trees and %u ghosts\n", step,
              (unsigned) most[0], (unsigned) most[1]);
    }
  }
  MPI_Allreduce (&data_ok, &all_ok, 1, MPI_INT, MPI_LAND, MPI_COMM_WORLD);
  if (rank == 0) {
    printf ("tree data %s\n", all_ok ? "came along" : "was lost");
  }
  free (part.bytes);
  free (new_table);
  free (old_table);
  MPI_Finalize ();
  return all_ok ? 0 : 1;
}
