/* How much stack each call takes: it runs on a painted stack of its own, and the deepest byte that it changed is looked
 * for. None may need more than the header says of its kind. The mesh is a row of quadrilaterals in which each ghost is far
 * away, of more than 65,536 trees, from where on the sets of trees that a call makes are largest. */
#define _POSIX_C_SOURCE 200809L
#include <vejgodat.h>

#include <pthread.h>
#include <stdio.h>
#include <stdlib.h>
#include <string.h>

#define TREES 98304
#define STACK (1 << 22)
#define PAINT 0x5a

static uint8_t      mesh[VEJGODAT_MESH_BYTES (TREES)];
static uint8_t      brick[VEJGODAT_MESH_BYTES (8 * 8 * 8)];
static uint8_t      part[VEJGODAT_PART_BYTES (TREES, 0)], joined[sizeof part];
static uint8_t      message[sizeof part], table[24], other[24];
static uint8_t      columns[sizeof part];
/* rank 0 has all five trees, rank 1 has none */
static const uint8_t one_has[24] = {[8] = 5,[16] = 5 };
static uint8_t      area[VEJGODAT_AREA_BYTES (2, TREES, 4)];
static uint32_t     leaves[TREES], list[2], first[2] = { 0, TREES / 2 };
static uint32_t     count[2] = { TREES / 2, TREES / 2 };
/* as many blocks as there can be, so that their sums are added as deep as they can be */
static uint8_t      of_many[24];
static uint32_t     many[VEJGODAT_MAX_TREES];
static uint64_t     sums[VEJGODAT_MAX_TREES / VEJGODAT_BLOCK_TREES];
static size_t       part_len, message_len, area_len;
static uint32_t     refused;
static uint32_t     counts[VEJGODAT_REGIONS], met[TREES];

static void
put (uint8_t * bytes, uint32_t number)
{
  int                 i;

  for (i = 0; i < 4; ++i) {
    bytes[i] = (uint8_t) (number >> (8 * i));
  }
}

/* face 0 of tree k meets face 1 of tree K - 1 - k; faces 2 and 3 lie at the boundary */
static void
make_mesh (void)
{
  uint32_t            k;
  uint8_t            *record;

  put (mesh, 2);
  put (mesh + 4, TREES);
  for (k = 0; k < TREES; ++k) {
    record = mesh + VEJGODAT_MESH_BYTES (k);
    put (record, k);
    put (record + 8, TREES - 1 - k);
    put (record + 12, TREES - 1 - k);
    put (record + 16, k);
    put (record + 20, k);
    put (record + 24, VEJGODAT_UNUSED);
    put (record + 28, VEJGODAT_UNUSED);
    record[32] = 1;
    record[33] = 0;
    record[34] = 2;
    record[35] = 3;
    leaves[k] = 1;
  }
  for (k = 0; k < VEJGODAT_MAX_TREES; ++k) {
    many[k] = 1;
    ++sums[k / VEJGODAT_BLOCK_TREES];
  }
}

static void
take (uint32_t refusal)
{
  refused += refusal != VEJGODAT_OK;
}

#define TAKE_LENGTH(name, call) \
  static void *name (void *none) { take ((call).refusal); return none; }
#define TAKE(name, call) \
  static void *name (void *none) { take (call); return none; }
#define OLD table, sizeof table
#define NEW other, sizeof other

static void        *
nothing (void *none)
{
  return none;
}

TAKE (version, vejgodat_version () != VEJGODAT_VERSION)
TAKE (check_table, vejgodat_check_table (OLD))
TAKE_LENGTH (table_length, vejgodat_table_length (2))
TAKE_LENGTH (table_range, vejgodat_table_range (OLD, 1))
TAKE_LENGTH (write_table,
             vejgodat_write_table (2, first, 2, count, 2, NEW))
TAKE_LENGTH (table_from_leaves,
             vejgodat_table_from_leaves (2, leaves, TREES, OLD))
TAKE_LENGTH (sender_of, vejgodat_sender_of (OLD, NEW, 0, 0))
TAKE_LENGTH (trees_sent, vejgodat_trees_sent (OLD, NEW, 0, 1))
TAKE_LENGTH (send_set, vejgodat_send_set (OLD, NEW, 0, list, 2))
TAKE_LENGTH (receive_set, vejgodat_receive_set (OLD, NEW, 0, list, 2))
TAKE (check_mesh, vejgodat_check_mesh (mesh, sizeof mesh))
TAKE_LENGTH (brick_length, vejgodat_brick_length (8, 8, 8))
TAKE_LENGTH (write_brick,
             vejgodat_write_brick (8, 8, 8, 0, 1, 0, brick, sizeof brick))
TAKE_LENGTH (part_length, vejgodat_part_length (mesh, sizeof mesh, OLD, 0))
TAKE_LENGTH (cut_part,
             vejgodat_cut_part (mesh, sizeof mesh, OLD, 0, part, sizeof part))
TAKE (check_part, vejgodat_check_part (part, part_len, OLD, 0))
TAKE_LENGTH (neighbour_of,
             vejgodat_neighbour_of (part, part_len, OLD, 0, 0, 0))
TAKE (lookup, vejgodat_lookup (part + 32, part_len - 32, NULL, 0, 5).which
      != VEJGODAT_FOUND_TREE)
TAKE_LENGTH (message_length,
             vejgodat_message_length (part, part_len, OLD, NEW, 0, 0))
TAKE_LENGTH (build_message,
             vejgodat_build_message (part, part_len, OLD, NEW, 0, 0, 1,
                                     message, sizeof message))
TAKE_LENGTH (build_all_length,
             vejgodat_build_all_length (part, part_len, OLD, NEW, 0))
TAKE_LENGTH (build_all,
             vejgodat_build_all (part, part_len, OLD, NEW, 0, 1, message,
                                 sizeof message))
TAKE (check_message, vejgodat_check_message (message, message_len))
TAKE_LENGTH (area_length, vejgodat_area_length (OLD, NEW, 0, 2))
TAKE_LENGTH (open_area,
             vejgodat_open_area (OLD, NEW, 0, 2, 1, area, sizeof area))
TAKE (deliver, vejgodat_deliver (area, area_len, message, message_len))
TAKE_LENGTH (deliver_all,
             vejgodat_deliver_all (area, area_len, message, message_len,
                                   list, 2))
TAKE_LENGTH (progress_of, vejgodat_progress_of (area, area_len))
TAKE_LENGTH (part_of_area_length,
             vejgodat_part_of_area_length (area, area_len))
TAKE_LENGTH (close_area,
             vejgodat_close_area (area, area_len, joined, sizeof joined))
TAKE (region_counts,
      vejgodat_region_counts (part, part_len, OLD, 0, counts,
                              VEJGODAT_REGIONS))
TAKE_LENGTH (trees_at_point,
             vejgodat_trees_at_point (part, part_len, OLD, 0, 0, 0, 0, met,
                                      TREES))
TAKE_LENGTH (trees_below,
             vejgodat_trees_below (part, part_len, OLD, 0, 0, 1, met,
                                   TREES))
TAKE_LENGTH (trees_between,
             vejgodat_trees_between (part, part_len, OLD, 0, 2, 0, 1, met,
                                     TREES))
TAKE (table_fault, vejgodat_table_fault (OLD).fault)

/* a sound object, and one whose last record fails, so that the search goes through all */
static void        *
mesh_fault (void *none)
{
  take (vejgodat_mesh_fault (mesh, sizeof mesh).fault);
  mesh[sizeof mesh - 59] = 1;
  take (vejgodat_mesh_fault (mesh, sizeof mesh).at != TREES - 1);
  mesh[sizeof mesh - 59] = 0;
  return none;
}

static void        *
part_fault (void *none)
{
  take (vejgodat_part_fault (part, part_len, OLD, 0).fault);
  part[part_len - 35] = 1;
  take (vejgodat_part_fault (part, part_len, OLD, 0).at != TREES - 1);
  part[part_len - 35] = 0;
  return none;
}

TAKE (mesh_header, vejgodat_mesh_header (mesh, sizeof mesh).field)
TAKE (part_header, vejgodat_part_header (part, part_len, OLD, 0).field)
TAKE_LENGTH (part_to_columns,
             vejgodat_part_to_columns (part, part_len, OLD, 0, columns,
                                       sizeof columns))
TAKE_LENGTH (columns_to_part,
             vejgodat_columns_to_part (columns, part_len, OLD, 0, joined,
                                       sizeof joined))
TAKE_LENGTH (pad_table, vejgodat_pad_table (OLD, 2, NEW))
TAKE_LENGTH (empty_part,
             vejgodat_empty_part (one_has, sizeof one_has, 1, 2, joined,
                                  sizeof joined))
TAKE_LENGTH (relabel_part,
             vejgodat_relabel_part (part, part_len, OLD, 0, NEW, 0, joined,
                                    sizeof joined))
TAKE_LENGTH (table_from_weights,
             vejgodat_table_from_weights (count, 2, leaves, TREES, OLD))
TAKE_LENGTH (table_from_blocks,
             vejgodat_table_from_blocks (2, many, VEJGODAT_MAX_TREES, sums,
                                         sizeof sums / sizeof sums[0],
                                         of_many, sizeof of_many))

static const uint8_t elements[] = "1 3 0\n0 5 6 7\n";
static uint8_t      triangle[VEJGODAT_MESH_BYTES (1)];

TAKE_LENGTH (triangle_length,
             vejgodat_triangle_length (elements, sizeof elements - 1))
TAKE_LENGTH (import_triangle,
             vejgodat_import_triangle (elements, sizeof elements - 1,
                                       triangle, sizeof triangle))

TAKE (corners, vejgodat_corners (VEJGODAT_PYRAMID, 4) != 4)

/* a refinement string as deep as there can be: of each refined element child `deep` is refined, in depth-first order */
static uint8_t      string[1 + VEJGODAT_MAX_DEPTH * 8];

static size_t
make_string (uint32_t children, uint32_t deep)
{
  size_t              len = 0;
  uint32_t            i, level;

  for (level = 0; level < VEJGODAT_MAX_DEPTH; ++level) {
    string[len++] = 1;
    for (i = 0; i < deep; ++i) {
      string[len++] = 0;
    }
  }
  string[len++] = 0;
  for (level = 0; level < VEJGODAT_MAX_DEPTH; ++level) {
    for (i = deep + 1; i < children; ++i) {
      string[len++] = 0;
    }
  }
  return len;
}

/* either call on such strings of each shape, and on one that is too deep */
static void
each_string (uint32_t (*call) (uint32_t shape, size_t len))
{
  uint32_t            shape, deep, children;
  size_t              len;

  for (shape = VEJGODAT_QUADRILATERAL; shape <= VEJGODAT_TETRAHEDRON; ++shape) {
    children = shape < VEJGODAT_HEXAHEDRON ? 4 : 8;
    for (deep = 0; deep < children; ++deep) {
      len = make_string (children, deep);
      take (call (shape, len));
      string[len - 1] = 1;
      take (call (shape, len) != VEJGODAT_STRING);
    }
    memset (string, 1, sizeof string);
    take (call (shape, sizeof string) != VEJGODAT_STRING);
  }
}

static uint32_t
leaves_of_one (uint32_t shape, size_t len)
{
  return vejgodat_count_leaves (shape, string, len).refusal;
}

static uint32_t
leaves_of_list (uint32_t shape, size_t len)
{
  uint32_t            length = (uint32_t) len;

  return vejgodat_leaf_counts (&shape, 1, &length, 1, string, len, list,
                               1).refusal;
}

static void        *
count_leaves (void *none)
{
  each_string (leaves_of_one);
  return none;
}

static void        *
leaf_counts (void *none)
{
  each_string (leaves_of_list);
  return none;
}

/* Run a call on a painted stack and return how deep it went; 0 where no thread could be made. */
static size_t
depth (void *(*call) (void *))
{
  pthread_attr_t      attributes;
  pthread_t           thread;
  void               *stack;
  size_t              at = 0;

  if (posix_memalign (&stack, 4096, STACK) != 0) {
    return 0;
  }
  memset (stack, PAINT, STACK);
  pthread_attr_init (&attributes);
  if (pthread_attr_setstack (&attributes, stack, STACK) == 0
      && pthread_create (&thread, &attributes, call, NULL) == 0) {
    pthread_join (thread, NULL);
    while (at < STACK && ((uint8_t *) stack)[at] == PAINT) {
      ++at;
    }
    at = STACK - at;
  }
  pthread_attr_destroy (&attributes);
  free (stack);
  return at;
}

int
main (void)
{
#define CALL(name, most) { #name, name, most }
  /* the kinds of calls, the largest of them within VEJGODAT_STACK_BYTES */
  enum
  {
    LITTLE = 1024, STRING = 5 * 1024, DELIVER = 137 * 1024,
    PART = 208 * 1024, BUILD = 336 * 1024
  };
  static const struct
  {
    const char         *name;
    void               *(*call) (void *);
    size_t              most;
  }
  calls[] = {
    CALL (version, LITTLE), CALL (check_table, LITTLE),
    CALL (table_length, LITTLE), CALL (table_range, LITTLE),
    CALL (write_table, LITTLE), CALL (table_from_leaves, LITTLE),
    CALL (sender_of, LITTLE), CALL (trees_sent, LITTLE),
    CALL (send_set, LITTLE), CALL (receive_set, LITTLE),
    CALL (corners, LITTLE), CALL (check_mesh, LITTLE),
    CALL (brick_length, LITTLE), CALL (write_brick, LITTLE),
    CALL (part_length, PART), CALL (cut_part, PART), CALL (check_part, PART),
    CALL (neighbour_of, PART), CALL (lookup, LITTLE),
    CALL (message_length, BUILD), CALL (build_message, BUILD),
    CALL (build_all_length, BUILD), CALL (build_all, BUILD),
    CALL (check_message, LITTLE), CALL (area_length, LITTLE),
    CALL (open_area, LITTLE), CALL (deliver, DELIVER),
    CALL (deliver_all, DELIVER), CALL (progress_of, LITTLE),
    CALL (part_of_area_length, PART), CALL (close_area, PART),
    CALL (count_leaves, STRING), CALL (leaf_counts, STRING),
    CALL (region_counts, PART), CALL (part_to_columns, PART),
    CALL (columns_to_part, PART), CALL (trees_at_point, PART),
    CALL (trees_below, PART), CALL (trees_between, PART),
    CALL (table_fault, LITTLE), CALL (mesh_fault, LITTLE),
    CALL (part_fault, PART), CALL (mesh_header, LITTLE),
    CALL (part_header, LITTLE), CALL (pad_table, LITTLE),
    CALL (empty_part, LITTLE), CALL (relabel_part, PART),
    CALL (table_from_weights, LITTLE),
    CALL (table_from_blocks, LITTLE),
    CALL (triangle_length, VEJGODAT_IMPORT_STACK_BYTES),
    CALL (import_triangle, VEJGODAT_IMPORT_STACK_BYTES)
  };
  size_t              i, used, base, most = 0;
  int                 wrong = BUILD > VEJGODAT_STACK_BYTES;

  make_mesh ();
  base = depth (nothing);
  /* both tables: rank 0 has the first half, rank 1 the second */
  take (vejgodat_table_from_leaves (2, leaves, TREES, OLD).refusal);
  take (vejgodat_table_from_leaves (2, leaves, TREES, NEW).refusal);
  for (i = 0; i < sizeof calls / sizeof calls[0]; ++i) {
    part_len = VEJGODAT_PART_BYTES (TREES / 2, TREES / 2);
    message_len = part_len;
    area_len = VEJGODAT_AREA_BYTES (2, TREES / 2, 4);
    refused = 0;
    used = depth (calls[i].call);
    if (used == 0 || refused > 0) {
      printf ("stack: vejgodat_%s did not run as meant\n", calls[i].name);
      ++wrong;
      continue;
    }
    used -= base;
    most = used > most ? used : most;
    if (getenv ("STACK_TABLE") != NULL) {
      printf ("%8lu  vejgodat_%s\n", (unsigned long) used, calls[i].name);
    }
    if (used > calls[i].most) {
      printf ("stack: vejgodat_%s takes %lu bytes\n", calls[i].name,
              (unsigned long) used);
      ++wrong;
    }
  }
  printf ("stack: at most %lu bytes, %lu calls\n", (unsigned long) most,
          (unsigned long) i);
  return wrong == 0 && base > 0 ? 0 : 1;
}
