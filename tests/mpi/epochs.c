/* Runs examples/mpi/exchange.c on random meshes and tables, ten epochs in a row, and compares each rank's part with the
 * one that is cut from the whole mesh: mpirun -n P epochs SEED ORDER
 *
 * SEED decides meshes and tables, ORDER in which order messages come. In even epochs each message is sent after a random
 * delay and taken as it comes; in odd ones a permutation of the senders decides. The last line has the counts, a
 * fingerprint of all parts, which must not depend on ORDER, and one of all orders, which should.
 * The exit status is 0 only where every part was right. */
#define _POSIX_C_SOURCE 200809L
#include "../../examples/mpi/exchange.h"

#include <stdio.h>
#include <stdlib.h>
#include <string.h>
#include <time.h>

#define EPOCHS 10
#define MOST_TREES 400

/* splitmix64 */
typedef uint64_t    generator;

static uint64_t
next (generator * g)
{
  uint64_t            z = (*g += UINT64_C (0x9E3779B97F4A7C15));

  z = (z ^ (z >> 30)) * UINT64_C (0xBF58476D1CE4E5B9);
  z = (z ^ (z >> 27)) * UINT64_C (0x94D049BB133111EB);
  return z ^ (z >> 31);
}

static uint32_t
below (generator * g, uint32_t n)
{
  return (uint32_t) ((next (g) >> 32) * n >> 32);
}

/* FNV-1a */
static uint64_t
mix (uint64_t print, const void *bytes, size_t length)
{
  const uint8_t      *at = bytes;

  while (length-- > 0) {
    print = (print ^ *at++) * UINT64_C (0x100000001b3);
  }
  return print;
}

/* ---- meshes ---- */

static const int    faces_of[6] = { 4, 3, 6, 4, 5, 5 };

static uint32_t
corners (int shape, int face)
{
  return shape < 2 ? 2 : shape == 2 ? 4 : shape == 3 ? 3
    : shape == 4 ? (face < 3 ? 4 : 3) : (face < 4 ? 3 : 4);
}

/* Trees of these shapes that meet nothing, with random data. */
static void
make_apart (generator * g, uint8_t * mesh, uint32_t dimension, uint32_t trees,
            const int *shapes)
{
  uint32_t            k;
  int                 i;

  vejgodat_mesh_set_header (mesh, dimension, trees);
  for (k = 0; k < trees; ++k) {
    vejgodat_mesh_set_tree (mesh, k, (uint32_t) shapes[k]);
    for (i = 0; i < 24; ++i) {
      vejgodat_mesh_writable_data (mesh, k)[i] = (uint8_t) next (g);
    }
  }
}

/* Any two faces with as many corners meet, those of near trees if `reach` is small; some lie at the boundary. */
static void
make_glued (generator * g, uint8_t * mesh, uint32_t dimension, uint32_t trees,
            uint32_t reach)
{
  static uint32_t     ends[6 * MOST_TREES][2];
  static int          shapes[MOST_TREES];
  uint32_t            k, c, count, at, other, t, open = below (g, 5);
  int                 face, i;

  for (k = 0; k < trees; ++k) {
    shapes[k] =
      (int) (dimension == 2 ? below (g, 2) : 2 + below (g, 4));
  }
  make_apart (g, mesh, dimension, trees, shapes);
  for (c = 2; c <= 4; ++c) {
    count = 0;
    for (k = 0; k < trees; ++k) {
      for (face = 0; face < faces_of[shapes[k]]; ++face) {
        if (corners (shapes[k], face) == c) {
          ends[count][0] = k;
          ends[count++][1] = (uint32_t) face;
        }
      }
    }
    for (at = 0; at < count; ++at) {
      other = at + below (g, reach < count - at ? reach : count - at);
      for (i = 0; i < 2; ++i) {
        t = ends[at][i];
        ends[at][i] = ends[other][i];
        ends[other][i] = t;
      }
    }
    for (at = 0; at + 1 < count; at += 2) {
      if (below (g, 16) >= open) {
        vejgodat_mesh_set_link (mesh, ends[at][0], ends[at][1],
                                ends[at + 1][0], ends[at + 1][1],
                                below (g, c));
      }
    }
  }
}

/* A box of quadrilaterals or hexahedra, periodic or not along each axis. Gives its number of trees. */
static uint32_t
make_box (generator * g, uint8_t * mesh, uint32_t dimension)
{
  static int          shapes[MOST_TREES];
  uint32_t            extent[3] = { 1, 1, 1 }, stride[3], periodic[3], trees;
  uint32_t            k, axis, place;

  for (trees = 1, axis = 0; axis < dimension; ++axis) {
    extent[axis] = 1 + below (g, dimension == 2 ? 20 : 7);
    stride[axis] = trees;
    periodic[axis] = below (g, 2);
    trees *= extent[axis];
  }
  for (k = 0; k < trees; ++k) {
    shapes[k] = dimension == 2 ? 0 : 2;
  }
  make_apart (g, mesh, dimension, trees, shapes);
  for (k = 0; k < trees; ++k) {
    for (axis = 0; axis < dimension; ++axis) {
      place = k / stride[axis] % extent[axis];
      if (place + 1 < extent[axis] || periodic[axis]) {
        vejgodat_mesh_set_link (mesh, k, 2 * axis + 1,
                                place + 1 < extent[axis] ? k + stride[axis]
                                : k - place * stride[axis], 2 * axis, 0);
      }
    }
  }
  return trees;
}

/* ---- tables ---- */

static int
ascending (const void *a, const void *b)
{
  const uint32_t      x = *(const uint32_t *) a, y = *(const uint32_t *) b;

  return x < y ? -1 : x > y;
}

/* The most ranks that one tree was on. */
static uint32_t     most_shared;

/* Cuts at any tenths of trees, often at the same ones: empty ranks, and trees on many ranks. */
static void
make_table (generator * g, uint32_t ranks, uint32_t trees, uint8_t * table)
{
  static uint32_t     cut[VEJGODAT_MAX_RANKS + 1];
  static uint32_t     first[VEJGODAT_MAX_RANKS], count[VEJGODAT_MAX_RANKS];
  const uint32_t      spots = 1 + below (g, ranks + 4), hot =
    below (g, 10 * trees);
  const uint32_t      kind = below (g, 3);
  uint32_t            p, q, shared;

  for (p = 0; p <= ranks; ++p) {
    cut[p] = kind == 0 ? below (g, 10 * trees + 1)
      : kind == 1 ? below (g, spots + 1) * (10 * trees / spots)
      : below (g, 4) ? hot / 10 * 10 + below (g, 11) : below (g, 10 * trees);
  }
  cut[0] = 0;
  cut[ranks] = 10 * trees;
  qsort (cut, ranks + 1, sizeof *cut, ascending);
  for (p = 0; p < ranks; ++p) {
    first[p] = cut[p] / 10;
    count[p] = cut[p] < cut[p + 1] ? (cut[p + 1] + 9) / 10 - first[p] : 0;
    /* this rank, and those below that have its first tree */
    for (q = 0, shared = 1; q < p && count[p] > 0; ++q) {
      shared += count[q] > 0 && first[q] + count[q] > first[p];
    }
    most_shared = shared > most_shared ? shared : most_shared;
  }
  must (vejgodat_write_table (ranks, first, ranks, count, ranks, table,
                              VEJGODAT_TABLE_BYTES (ranks)).refusal,
        "vejgodat_write_table");
}

/* ---- the order in which messages come: MPI's calls as the exchange sees them ---- */

static generator    order_seed;
static int          permuted;
static uint32_t     senders[VEJGODAT_MAX_RANKS], taken;
static uint64_t     orders = 1, messages;

static void
delay (void)
{
  struct timespec     wait = { 0, 0 };

  if (below (&order_seed, 2)) {
    wait.tv_nsec = (long) below (&order_seed, 500000);
    nanosleep (&wait, NULL);
  }
}

int
MPI_Isend (const void *bytes, int count, MPI_Datatype type, int to, int tag,
           MPI_Comm comm, MPI_Request * request)
{
  if (!permuted) {
    delay ();
  }
  return PMPI_Isend (bytes, count, type, to, tag, comm, request);
}

int
MPI_Probe (int source, int tag, MPI_Comm comm, MPI_Status * status)
{
  int                 result;

  if (permuted) {
    source = (int) senders[taken++];
  }
  else {
    delay ();
  }
  result = PMPI_Probe (source, tag, comm, status);
  orders = mix (orders, &status->MPI_SOURCE, sizeof status->MPI_SOURCE);
  ++messages;
  return result;
}

/* A random order of the receive set. */
static void
permute (const uint8_t * old_table, const uint8_t * new_table,
         size_t table_len, uint32_t rank)
{
  vejgodat_ranks      set;
  uint32_t            i, j, t;

  set = vejgodat_receive_set (old_table, table_len, new_table, table_len,
                              rank, senders, VEJGODAT_MAX_RANKS);
  must (set.refusal, "vejgodat_receive_set");
  for (i = 0; i < set.count; ++i) {
    j = i + below (&order_seed, set.count - i);
    t = senders[i];
    senders[i] = senders[j];
    senders[j] = t;
  }
  taken = 0;
}

/* ---- the comparison ---- */

/* Whether the header's readers say the same as the checked call, at some tree and every face. The generator is the
 * rank's own: that of the tables must give the same on all ranks. */
static int
readers_agree (generator * g, const mesh_part * part, const uint8_t * table,
               size_t table_len, uint32_t rank)
{
  const uint32_t      trees = vejgodat_part_trees (part->bytes);
  uint32_t            i, face;
  vejgodat_neighbour  there;

  if (trees == 0) {
    return 1;
  }
  i = below (g, trees);
  for (face = 0; face < 6; ++face) {
    there = vejgodat_neighbour_of (part->bytes, part->length, table,
                                   table_len, rank, i, face);
    if (there.refusal != VEJGODAT_OK
        || there.shape != vejgodat_part_shape (part->bytes, i)
        || (there.kind == VEJGODAT_KIND_UNUSED ? VEJGODAT_UNUSED
            : there.index) != vejgodat_part_neighbour (part->bytes, i, face)
        || there.kind != vejgodat_part_kind (part->bytes, i, face)
        || there.face != vejgodat_part_face (part->bytes, i, face)
        || there.orientation
        != vejgodat_part_orientation (part->bytes, i, face)
        || (there.kind == VEJGODAT_KIND_GHOST) != (there.index >= trees
                                                   && there.kind
                                                   != VEJGODAT_KIND_UNUSED)) {
      return 0;
    }
  }
  return 1;
}

static void
cut (const uint8_t * mesh, uint32_t trees, const uint8_t * table,
     size_t table_len, uint32_t rank, mesh_part * part)
{
  vejgodat_length     length;

  length = vejgodat_cut_part (mesh, VEJGODAT_MESH_BYTES (trees), table,
                              table_len, rank, part->bytes,
                              VEJGODAT_PART_BYTES (trees, 0));
  must (length.refusal, "vejgodat_cut_part");
  part->length = (size_t) length.length;
}

int
main (int argc, char **argv)
{
  static uint8_t      mesh[VEJGODAT_MESH_BYTES (MOST_TREES)];
  static uint8_t      tables[2][VEJGODAT_TABLE_BYTES (VEJGODAT_MAX_RANKS)];
  static const uint32_t sizes[6] = { 1, 2, 5, 20, 90, MOST_TREES };
  generator           g, own;
  uint64_t            seed, print = 1, sums[4], all[4];
  uint32_t            ranks, me, kind, size, dimension, trees, epoch, k;
  uint32_t            shapes = 0, number = 0;
  size_t              table_len;
  mesh_part           part, expected;
  int                 rank, wrong = 0, any, r;

  MPI_Init (&argc, &argv);
  MPI_Comm_size (MPI_COMM_WORLD, &r);
  MPI_Comm_rank (MPI_COMM_WORLD, &rank);
  ranks = (uint32_t) r;
  me = (uint32_t) rank;
  table_len = VEJGODAT_TABLE_BYTES (ranks);
  own = me;
  seed = argc == 3 ? strtoul (argv[1], NULL, 10) : 1;
  order_seed = (argc == 3 ? strtoul (argv[2], NULL, 10) : 1) * 1000003 + me;
  memset (sums, 0, sizeof sums);
  expected.bytes = malloc (VEJGODAT_PART_BYTES (MOST_TREES, 0));

  for (dimension = 2; dimension <= 3; ++dimension) {
    for (kind = 0; kind < 3; ++kind) {
      for (size = 0; size < 6; ++size) {
        g = seed * 1000 + 100 * dimension + 10 * kind + size;
        trees = sizes[size];
        if (kind == 2) {
          trees = make_box (&g, mesh, dimension);
        }
        else {
          make_glued (&g, mesh, dimension, trees, kind ? 12 : 6 * trees);
        }
        must (vejgodat_check_mesh (mesh, VEJGODAT_MESH_BYTES (trees)),
              "vejgodat_check_mesh");
        for (k = 0; k < trees; ++k) {
          shapes |= 1u << mesh[VEJGODAT_MESH_BYTES (k) + 4];
        }
        make_table (&g, ranks, trees, tables[0]);
        part.bytes = malloc (VEJGODAT_PART_BYTES (trees, 0));
        cut (mesh, trees, tables[0], table_len, me, &part);
        for (epoch = 0; epoch < EPOCHS; ++epoch) {
          const uint8_t      *old_table = tables[epoch % 2];
          uint8_t            *new_table = tables[(epoch + 1) % 2];

          make_table (&g, ranks, trees, new_table);
          permuted = epoch % 2;
          if (permuted) {
            permute (old_table, new_table, table_len, me);
          }
          /* all messages at once, or each as it comes */
          (epoch / 2 % 2 ? exchange_as_they_come : exchange)
            (MPI_COMM_WORLD, number++, old_table, new_table, table_len, &part);
          cut (mesh, trees, new_table, table_len, me, &expected);
          if (part.length != expected.length
              || memcmp (part.bytes, expected.bytes, part.length) != 0
              || !readers_agree (&own, &part, new_table, table_len, me)) {
            printf ("rank %d: dimension %u, kind %u, %u trees, epoch %u:"
                    " another part\n", rank, (unsigned) dimension,
                    (unsigned) kind, (unsigned) trees, (unsigned) epoch);
            ++wrong;
          }
          print = mix (print, part.bytes, part.length);
          ++sums[0];
          sums[1] += vejgodat_part_trees (part.bytes) == 0;
          sums[2] += vejgodat_part_ghosts (part.bytes);
        }
        free (part.bytes);
      }
    }
  }
  free (expected.bytes);

  sums[3] = messages;
  MPI_Allreduce (sums, all, 4, MPI_UINT64_T, MPI_SUM, MPI_COMM_WORLD);
  MPI_Allreduce (&wrong, &any, 1, MPI_INT, MPI_SUM, MPI_COMM_WORLD);
  sums[0] = mix (print, &me, sizeof me);
  sums[1] = mix (orders, &me, sizeof me);
  MPI_Allreduce (sums, sums + 2, 2, MPI_UINT64_T, MPI_BXOR, MPI_COMM_WORLD);
  if (rank == 0) {
    if (shapes != 63 || (ranks > 1 && (all[1] == 0 || most_shared < 2))) {
      printf ("not every shape, no empty rank or no shared tree was there\n");
      ++any;
    }
    printf ("ranks=%u parts=%lu empty=%lu shared=%u ghosts=%lu messages=%lu"
            " wrong=%d fingerprint=%016lx orders=%016lx\n",
            (unsigned) ranks, (unsigned long) all[0], (unsigned long) all[1],
            (unsigned) most_shared, (unsigned long) all[2],
            (unsigned long) all[3], any, (unsigned long) sums[2],
            (unsigned long) sums[3]);
  }
  MPI_Finalize ();
  return any == 0 ? 0 : 1;
}
