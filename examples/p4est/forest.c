/* From p4est to Vejgodat and back, in dimension 2, and in dimension 3 with -DFOREST_3D:
 *
 *  - mesh_of: a connectivity becomes the bytes of a whole mesh;
 *  - table_of: a forest's own partition becomes a table, through vejgodat_write_table, which is right however the forest
 *    rounds;
 *  - leaves_of, and vejgodat_table_from_leaves: a forest's leaf counts become a table, in general another one than that
 *    of p4est's partition, see cut_down.
 *
 * In dimension 3, p4est's bricks with their trees renumbered by position are those of vejgodat_write_brick.
 *
 * The program refines forests over several of p4est's connectivities, lets p4est share them out equally, compares the
 * tables, and moves each rank's part of the coarse mesh along: mpirun -n 4 ./forest2d */
#ifdef FOREST_3D
#include <p4est_to_p8est.h>
#include <p8est_communication.h>
#include <p8est_extended.h>
#else
#include <p4est_communication.h>
#include <p4est_extended.h>
#endif
#include "../mpi/exchange.h"

#include <assert.h>
#include <stdio.h>
#include <stdlib.h>
#include <string.h>

#define DEEPEST 4

/* Write the whole mesh of a connectivity, VEJGODAT_MESH_BYTES (num_trees). p4est's face codes are the same: orientation
 * times 2 * P4EST_DIM plus the neighbour's face, and a boundary meets itself. It has each link at both ends. */
static void
mesh_of (const p4est_connectivity_t * conn, uint8_t * mesh)
{
  const uint32_t      trees = (uint32_t) conn->num_trees;
  uint32_t            k, face, code;

  vejgodat_mesh_set_header (mesh, P4EST_DIM, trees);
  for (k = 0; k < trees; ++k) {
    vejgodat_mesh_set_tree (mesh, k, P4EST_DIM == 2 ? VEJGODAT_QUADRILATERAL
                            : VEJGODAT_HEXAHEDRON);
  }
  for (k = 0; k < trees; ++k) {
    for (face = 0; face < P4EST_FACES; ++face) {
      code = (uint32_t) conn->tree_to_face[P4EST_FACES * k + face];
      vejgodat_mesh_set_link (mesh, k, face, (uint32_t)
                              conn->tree_to_tree[P4EST_FACES * k + face],
                              code % P4EST_FACES, code / P4EST_FACES);
    }
  }
}

/* The number of leaves of each tree, over all ranks. Collective. */
static void
leaves_of (p4est_t * forest, uint32_t * leaves)
{
  const p4est_topidx_t trees = forest->connectivity->num_trees;
  p4est_gloidx_t     *below = P4EST_ALLOC (p4est_gloidx_t, trees + 1);
  p4est_topidx_t      k;

  p4est_comm_count_pertree (forest, below);
  for (k = 0; k < trees; ++k) {
    leaves[k] = (uint32_t) (below[k + 1] - below[k]);
  }
  P4EST_FREE (below);
}

/* The table of the partition that a forest has. Collective. */
static void
table_of (p4est_t * forest, uint8_t * table)
{
  const uint32_t      ranks = (uint32_t) forest->mpisize;
  uint32_t           *first = room (2 * ranks * sizeof *first);
  uint32_t            mine[2];

  /* an empty rank has the trees from -1 to -2 */
  mine[0] = (uint32_t) forest->first_local_tree;
  mine[1] = (uint32_t) (forest->last_local_tree - forest->first_local_tree + 1);
  MPI_Allgather (mine, 1, MPI_UINT32_T, first, 1, MPI_UINT32_T,
                 forest->mpicomm);
  MPI_Allgather (mine + 1, 1, MPI_UINT32_T, first + ranks, 1, MPI_UINT32_T,
                 forest->mpicomm);
  must (vejgodat_write_table (ranks, first, ranks, first + ranks, ranks,
                              table, VEJGODAT_TABLE_BYTES (ranks)).refusal,
        "vejgodat_write_table");
  free (first);
}

/* Rank p's first leaf by p4est's formula for equal shares, floor (N p / P), and by ours, ceil (N p / P). They differ
 * where P doesn't divide N p: of 8 leaves, p4est gives three ranks 2, 3 and 3, and vejgodat_table_from_leaves 3, 3 and
 * 2. */
static int64_t
cut_down (int64_t total, int p, int ranks)
{
  return p4est_partition_cut_gloidx (total, p, ranks);
}

static int64_t
cut_up (int64_t total, int p, int ranks)
{
  return total - p4est_partition_cut_gloidx (total, ranks - p, ranks);
}

/* The table by such a formula. */
static void
table_by_formula (int64_t (*cut) (int64_t, int, int), const uint32_t * leaves,
                  uint32_t trees, int ranks, uint8_t * table)
{
  const size_t        P = (size_t) ranks;
  uint32_t           *first = room (2 * P * sizeof *first), k = 0;
  int64_t             total = 0, before = 0, begin, end;
  int                 p;

  for (k = 0; k < trees; ++k) {
    total += leaves[k];
  }
  for (k = 0, p = 0; p < ranks; ++p) {
    begin = cut (total, p, ranks);
    end = cut (total, p + 1, ranks);
    first[P + p] = 0;
    if (begin < end) {
      for (; before + leaves[k] <= begin; before += leaves[k++]);
      first[p] = k;
      for (; before + leaves[k] < end; before += leaves[k++]);
      first[P + p] = k - first[p] + 1;
    }
  }
  must (vejgodat_write_table ((uint32_t) ranks, first, P, first + P, P, table,
                              VEJGODAT_TABLE_BYTES (ranks)).refusal,
        "vejgodat_write_table");
  free (first);
}

/* Refine about every third element, by a number mixed from its place and the step; coarse ones at the latest two steps
 * after they came. */
static int
refine (p4est_t * forest, p4est_topidx_t tree, p4est_quadrant_t * q)
{
  const uint32_t      step = *(const uint32_t *) forest->user_pointer;
  uint32_t            mixed = (step * 31 + (uint32_t) tree) * 2654435761u;

  mixed = (mixed ^ (uint32_t) q->x >> 10) * 2246822519u;
  mixed = (mixed ^ (uint32_t) q->y >> 10) * 3266489917u;
#ifdef FOREST_3D
  mixed = (mixed ^ (uint32_t) q->z >> 10) * 668265263u;
#endif
  mixed ^= mixed >> 15;
  return q->level < DEEPEST
    && (mixed % 3 == 0 || (uint32_t) q->level + 2 < step);
}

/* Some steps over one connectivity. Gives the number of differences found. */
static int
run (const char *name, p4est_connectivity_t * conn, uint32_t steps)
{
  const uint32_t      trees = (uint32_t) conn->num_trees;
  const size_t        mesh_len = VEJGODAT_MESH_BYTES (trees);
  uint8_t            *mesh = room (mesh_len), *tables[4], *cut;
  uint32_t           *leaves = room (trees * sizeof *leaves), step = 0, i;
  uint32_t            rank;
  size_t              table_len;
  vejgodat_length     length;
  mesh_part           part;
  p4est_t            *forest;
  int                 ranks, wrong = 0;

  mesh_of (conn, mesh);
  must_be_sound (vejgodat_mesh_fault (mesh, mesh_len), name);
  forest = p4est_new_ext (MPI_COMM_WORLD, conn, 0, 0, 1, 0, NULL, &step);
  ranks = forest->mpisize;
  rank = (uint32_t) forest->mpirank;
  table_len = VEJGODAT_TABLE_BYTES (ranks);
  for (i = 0; i < 4; ++i) {
    tables[i] = room (table_len);
  }

  table_of (forest, tables[0]);
  part.bytes = room (VEJGODAT_PART_BYTES (trees, 0));
  cut = room (VEJGODAT_PART_BYTES (trees, 0));
  assert (apart (part.bytes, VEJGODAT_PART_BYTES (trees, 0), mesh, mesh_len));
  length = vejgodat_cut_part (mesh, mesh_len, tables[0], table_len, rank,
                              part.bytes, VEJGODAT_PART_BYTES (trees, 0));
  must (length.refusal, "vejgodat_cut_part");
  part.length = (size_t) length.length;

  for (step = 1; step <= steps; ++step) {
    uint8_t            *new_table = tables[step % 2];

    p4est_refine (forest, 0, refine, NULL);
    p4est_partition (forest, 0, NULL);

    /* p4est's partition is that of its formula; ours by leaf counts is that of the other formula, and so another
     * table in general */
    table_of (forest, new_table);
    leaves_of (forest, leaves);
    table_by_formula (cut_down, leaves, trees, ranks, tables[2]);
    wrong += memcmp (new_table, tables[2], table_len) != 0;
    table_by_formula (cut_up, leaves, trees, ranks, tables[2]);
    must (vejgodat_table_from_leaves ((uint32_t) ranks, leaves, trees,
                                      tables[3], table_len).refusal,
          "vejgodat_table_from_leaves");
    wrong += memcmp (tables[2], tables[3], table_len) != 0;

    /* the coarse mesh follows the leaves */
    exchange (MPI_COMM_WORLD, step, tables[(step + 1) % 2], new_table,
              table_len, &part);
    length = vejgodat_cut_part (mesh, mesh_len, new_table, table_len, rank,
                                cut, VEJGODAT_PART_BYTES (trees, 0));
    wrong += length.length != part.length
      || memcmp (cut, part.bytes, part.length) != 0;
  }
  MPI_Allreduce (MPI_IN_PLACE, &wrong, 1, MPI_INT, MPI_SUM, MPI_COMM_WORLD);
  if (rank == 0) {
    printf ("%s: %u trees, %lu leaves, %u steps, %d differences\n", name,
            (unsigned) trees, (unsigned long) forest->global_num_quadrants,
            (unsigned) steps, wrong);
  }

  p4est_destroy (forest);
  p4est_connectivity_destroy (conn);
  for (i = 0; i < 4; ++i) {
    free (tables[i]);
  }
  free (cut);
  free (part.bytes);
  free (leaves);
  free (mesh);
  return wrong;
}

#ifdef FOREST_3D
/* p4est's brick, its trees renumbered by position, the first axis fastest, beside the one that vejgodat_write_brick
 * writes: whether their bytes differ. */
static int
brick_differs (const int extents[3], const int periodic[3])
{
  p4est_connectivity_t *conn =
    p8est_connectivity_new_brick (extents[0], extents[1], extents[2],
                                  periodic[0], periodic[1], periodic[2]);
  const uint32_t      trees = (uint32_t) conn->num_trees;
  const size_t        mesh_len = VEJGODAT_MESH_BYTES (trees);
  uint8_t            *mesh = room (mesh_len), *theirs = room (mesh_len);
  uint8_t            *ours = room (mesh_len), *record;
  uint32_t           *number = room (trees * sizeof *number), k, face;
  const double       *corner;
  int                 differs;

  /* the low corner of a tree has its coordinates */
  for (k = 0; k < trees; ++k) {
    corner = conn->vertices + 3 * conn->tree_to_vertex[P4EST_CHILDREN * k];
    number[k] = (uint32_t) (corner[0] + extents[0] *
                            (corner[1] + extents[1] * corner[2]));
  }
  mesh_of (conn, mesh);
  memset (theirs, 255, mesh_len);
  memcpy (theirs, mesh, 8);
  for (k = 0; k < trees; ++k) {
    record = theirs + VEJGODAT_MESH_BYTES (number[k]);
    memcpy (record, mesh + VEJGODAT_MESH_BYTES (k), 64);
    vejgodat_put_number (record, number[k]);
    for (face = 0; face < P4EST_FACES; ++face) {
      vejgodat_put_number (record + 8 + 4 * face,
                           number[conn->tree_to_tree[P4EST_FACES * k + face]]);
    }
  }
  must (vejgodat_write_brick ((uint32_t) extents[0], (uint32_t) extents[1],
                              (uint32_t) extents[2], (uint32_t) periodic[0],
                              (uint32_t) periodic[1], (uint32_t) periodic[2],
                              ours, mesh_len).refusal,
        "vejgodat_write_brick");
  differs = memcmp (theirs, ours, mesh_len) != 0;
  p4est_connectivity_destroy (conn);
  free (number);
  free (ours);
  free (theirs);
  free (mesh);
  return differs;
}

/* Bricks of all extents up to 4 and some longer ones, each axis periodic or not. Gives how many differ. */
static int
bricks (void)
{
  static const int    longer[4][3] =
    { {7, 5, 3}, {1, 9, 1}, {64, 1, 2}, {6, 16, 5} };
  int                 i, count = 0, wrong = 0, extents[3], periodic[3], rank;

  for (i = 0; i < 8 * (64 + 4); ++i) {
    const int           brick = i / 8;

    extents[0] = brick < 64 ? 1 + brick % 4 : longer[brick - 64][0];
    extents[1] = brick < 64 ? 1 + brick / 4 % 4 : longer[brick - 64][1];
    extents[2] = brick < 64 ? 1 + brick / 16 : longer[brick - 64][2];
    periodic[0] = i % 2;
    periodic[1] = i / 2 % 2;
    periodic[2] = i / 4 % 2;
    wrong += brick_differs (extents, periodic);
    ++count;
  }
  MPI_Comm_rank (MPI_COMM_WORLD, &rank);
  if (rank == 0) {
    printf ("bricks: %d beside ours, %d differences\n", count, wrong);
  }
  return wrong;
}
#endif

int
main (int argc, char **argv)
{
#ifdef FOREST_3D
  static const char  *names[] = { "unit", "periodic", "rotwrap", "twocubes",
    "twowrap", "rotcubes", "shell", "sphere"
  };
#else
  static const char  *names[] = { "unit", "periodic", "rotwrap", "corner",
    "pillow", "moebius", "star", "cubed", "disk"
  };
#endif
  int                 wrong = 0;
  size_t              i;

  MPI_Init (&argc, &argv);
  p4est_init (NULL, SC_LP_ERROR);
  for (i = 0; i < sizeof names / sizeof names[0]; ++i) {
    wrong += run (names[i], p4est_connectivity_new_byname (names[i]), 6);
  }
#ifdef FOREST_3D
  wrong += run ("brick", p8est_connectivity_new_brick (3, 4, 5, 0, 1, 0), 4);
  wrong += bricks ();
#else
  wrong += run ("brick", p4est_connectivity_new_brick (9, 7, 1, 0), 5);
#endif
  MPI_Finalize ();
  return wrong == 0 ? 0 : 1;
}
