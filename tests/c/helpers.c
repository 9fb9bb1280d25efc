/* Compares each inline function of include/vejgodat.h that reads or writes bytes, walks over messages or writes a fault
 * with the bytes themselves and with the calls. Built with the sanitizers too: what may not be left is a block of malloc
 * of that very length. It says what differs, and its exit status is 0 only where nothing did. */
#include <vejgodat.h>

#include <stdio.h>
#include <stdlib.h>
#include <string.h>

static int          wrong = 0;

#define EXPECT(condition)                                               \
  do {                                                                  \
    if (!(condition)) {                                                 \
      printf ("helpers.c:%d: not so: %s\n", __LINE__, #condition);      \
      ++wrong;                                                          \
    }                                                                   \
  } while (0)

static const uint32_t faces_of[6] = { 4, 3, 6, 4, 5, 5 };

/* splitmix64 */
static uint64_t     state = 43;

static uint32_t
below (uint32_t n)
{
  uint64_t            z = (state += UINT64_C (0x9E3779B97F4A7C15));

  z = (z ^ (z >> 30)) * UINT64_C (0xBF58476D1CE4E5B9);
  z = (z ^ (z >> 27)) * UINT64_C (0x94D049BB133111EB);
  return (uint32_t) ((z >> 33) * n >> 31);
}

static void        *
room (size_t bytes)
{
  void               *at = malloc (bytes);

  if (at == NULL && bytes > 0) {
    printf ("helpers.c: no room for %lu bytes\n", (unsigned long) bytes);
    exit (1);
  }
  return at;
}

/* a copy of the first bytes of a buffer, in a block of that length */
static uint8_t     *
copy_of (const uint8_t * bytes, size_t length)
{
  uint8_t            *copy = room (length);

  if (length > 0) {
    memcpy (copy, bytes, length);
  }
  return copy;
}

static void
numbers (void)
{
  static const uint32_t some[6] =
    { 0, 1, 255, 0x01020304, 0x80000000u, VEJGODAT_UNUSED };
  uint8_t             bytes[8], record[64];
  uint32_t            number, region;
  int                 i, at, j;

  for (i = 0; i < 6; ++i) {
    number = some[i];
    for (at = 0; at < 5; ++at) {
      memset (bytes, 0x5a, sizeof bytes);
      vejgodat_put_number (bytes + at, number);
      for (j = 0; j < 8; ++j) {
        EXPECT (bytes[j] == (j < at || j > at + 3 ? 0x5a
                             : (number >> (8 * (j - at)) & 255)));
      }
      EXPECT (vejgodat_number_at (bytes + at) == number);
    }
  }
  for (region = 0; region < VEJGODAT_REGIONS; ++region) {
    memset (record, 0x5a, sizeof record);
    vejgodat_put_region (record, region);
    EXPECT (vejgodat_region_at (record) == region);
    EXPECT (record[38] + 256u * record[39] == region);
    EXPECT (record[37] == 0x5a && record[40] == 0x5a);
  }
}

static void
shapes (void)
{
  static const uint32_t names[6] = {
    VEJGODAT_QUADRILATERAL, VEJGODAT_TRIANGLE, VEJGODAT_HEXAHEDRON,
    VEJGODAT_TETRAHEDRON, VEJGODAT_PRISM, VEJGODAT_PYRAMID
  };
  uint32_t            shape;

  for (shape = 0; shape < 6; ++shape) {
    EXPECT (names[shape] == shape);
    EXPECT (vejgodat_corners (shape, faces_of[shape] - 1) > 0);
    EXPECT (vejgodat_corners (shape, faces_of[shape]) == 0);
  }
}

/* The record of a tree, written byte by byte as the header's table has it; all faces lie at the boundary. */
static void
put_apart (uint8_t * record, uint32_t tree, uint32_t shape)
{
  uint32_t            face, i;

  memset (record, 0, 64);
  record[4] = (uint8_t) shape;
  for (i = 0; i < 4; ++i) {
    record[i] = (uint8_t) (tree >> (8 * i));
    for (face = 0; face < 6; ++face) {
      record[8 + 4 * face + i] =
        (uint8_t) (face < faces_of[shape] ? tree >> (8 * i) : 255);
    }
  }
  for (face = 0; face < faces_of[shape]; ++face) {
    record[32 + face] = (uint8_t) face;
  }
}

/* Two trees of all shapes of a dimension: any two faces linked, with any orientation, and parted again. */
static void
links (void)
{
  const size_t        mesh_len = VEJGODAT_MESH_BYTES (3);
  uint8_t            *mesh = room (mesh_len), apart[VEJGODAT_MESH_BYTES (3)];
  uint32_t            dimension, a, b, i, j, turn, corners, F, k;
  vejgodat_fault      fault;

  for (dimension = 2; dimension <= 3; ++dimension) {
    F = dimension == 2 ? 4 : 6;
    for (a = dimension == 2 ? 0 : 2; a < (dimension == 2 ? 2 : 6); ++a) {
      for (b = dimension == 2 ? 0 : 2; b < (dimension == 2 ? 2 : 6); ++b) {
        memset (apart, 0, 8);
        apart[0] = (uint8_t) dimension;
        apart[4] = 3;
        put_apart (apart + 8, 0, b);
        put_apart (apart + 72, 1, a);
        put_apart (apart + 136, 2, b);
        memset (mesh, 0x5a, mesh_len);
        vejgodat_mesh_set_header (mesh, dimension, 3);
        EXPECT (mesh[8] == 0x5a);
        for (k = 0; k < 3; ++k) {
          vejgodat_mesh_set_tree (mesh, k, k == 1 ? a : b);
        }
        EXPECT (memcmp (mesh, apart, mesh_len) == 0);
        EXPECT (vejgodat_mesh_dimension (mesh) == dimension);
        EXPECT (vejgodat_mesh_trees (mesh) == 3);
        EXPECT (vejgodat_check_mesh (mesh, mesh_len) == VEJGODAT_OK);
        for (i = 0; i < faces_of[a]; ++i) {
          for (j = 0; j < faces_of[b]; ++j) {
            corners = vejgodat_corners (a, i);
            for (turn = 0; turn <= corners; ++turn) {
              vejgodat_mesh_set_link (mesh, 1, i, 2, j, turn);
              EXPECT (vejgodat_number_at (mesh + 72 + 8 + 4 * i) == 2);
              EXPECT (vejgodat_number_at (mesh + 136 + 8 + 4 * j) == 1);
              EXPECT (mesh[72 + 32 + i] == turn * F + j);
              EXPECT (mesh[136 + 32 + j] == turn * F + i);
              fault = vejgodat_mesh_fault (mesh, mesh_len);
              EXPECT (fault.kind == (turn == corners
                                     ? VEJGODAT_FAULT_ORIENTATION
                                     : corners != vejgodat_corners (b, j)
                                     ? VEJGODAT_FAULT_CORNERS
                                     : VEJGODAT_FAULT_NONE));
            }
            vejgodat_mesh_set_boundary (mesh, 1, i);
            fault = vejgodat_mesh_fault (mesh, mesh_len);
            EXPECT (fault.fault == VEJGODAT_MESH && fault.at == 2
                    && fault.face == j);
            vejgodat_mesh_set_boundary (mesh, 2, j);
            EXPECT (memcmp (mesh, apart, mesh_len) == 0);
          }
        }
      }
    }
  }
  /* a tree that meets itself; a shape that there is not */
  vejgodat_mesh_set_header (mesh, 3, 3);
  for (k = 0; k < 3; ++k) {
    vejgodat_mesh_set_tree (mesh, k, VEJGODAT_HEXAHEDRON);
  }
  vejgodat_mesh_set_link (mesh, 2, 0, 2, 5, 3);
  EXPECT (vejgodat_check_mesh (mesh, mesh_len) == VEJGODAT_OK);
  vejgodat_mesh_set_tree (mesh, 0, 6);
  EXPECT (vejgodat_mesh_fault (mesh, mesh_len).kind == VEJGODAT_FAULT_SHAPE);
  vejgodat_mesh_set_tree (mesh, 0, 256 + VEJGODAT_HEXAHEDRON);
  EXPECT (vejgodat_check_mesh (mesh, mesh_len) == VEJGODAT_MESH);
  free (mesh);
}

/* The brick of vejgodat_write_brick, made tree by tree and link by link: the high face of each tree on each axis. */
static uint8_t     *
make_brick (const uint32_t extent[3], const uint32_t periodic[3])
{
  const uint32_t      trees = extent[0] * extent[1] * extent[2];
  uint8_t            *mesh = room (VEJGODAT_MESH_BYTES (trees));
  uint32_t            k, axis, stride, place;

  memset (mesh, 0x5a, VEJGODAT_MESH_BYTES (trees));
  vejgodat_mesh_set_header (mesh, 3, trees);
  for (k = 0; k < trees; ++k) {
    vejgodat_mesh_set_tree (mesh, k, VEJGODAT_HEXAHEDRON);
  }
  for (k = 0; k < trees; ++k) {
    for (axis = 0, stride = 1; axis < 3; stride *= extent[axis++]) {
      place = k / stride % extent[axis];
      if (place + 1 < extent[axis]) {
        vejgodat_mesh_set_link (mesh, k, 2 * axis + 1, k + stride, 2 * axis,
                                0);
      }
      else if (periodic[axis]) {
        vejgodat_mesh_set_link (mesh, k, 2 * axis + 1, k - place * stride,
                                2 * axis, 0);
      }
    }
  }
  return mesh;
}

static void
bricks (void)
{
  uint32_t            extent[3], periodic[3], axis;
  uint8_t            *mesh, *brick;
  vejgodat_length     length;
  int                 i, j, rest;

  for (i = 0; i < 64; ++i) {
    for (rest = i, axis = 0; axis < 3; rest /= 4, ++axis) {
      extent[axis] = 1 + (uint32_t) rest % 4;
    }
    for (j = 0; j < 8; ++j) {
      for (axis = 0; axis < 3; ++axis) {
        periodic[axis] = (uint32_t) j >> axis & 1;
      }
      mesh = make_brick (extent, periodic);
      length = vejgodat_brick_length (extent[0], extent[1], extent[2]);
      brick = room ((size_t) length.length);
      length = vejgodat_write_brick (extent[0], extent[1], extent[2],
                                     periodic[0], periodic[1], periodic[2],
                                     brick, (size_t) length.length);
      EXPECT (length.refusal == VEJGODAT_OK);
      EXPECT (length.length
              == VEJGODAT_MESH_BYTES (vejgodat_mesh_trees (mesh)));
      EXPECT (vejgodat_mesh_dimension (brick) == 3);
      EXPECT (memcmp (mesh, brick, (size_t) length.length) == 0);
      free (brick);
      free (mesh);
    }
  }
}

#define RANKS 4
#define TREES 60

/* What a move needs: a brick of 5 by 4 by 3 trees with regions and data, two tables and the parts under the first. */
typedef struct
{
  uint8_t            *mesh, *part[RANKS];
  size_t              part_len[RANKS];
  uint8_t             tables[2][VEJGODAT_TABLE_BYTES (RANKS)];
}
run;

#define MESH(it) (it)->mesh, VEJGODAT_MESH_BYTES (TREES)
#define TABLE(it, i) (it)->tables[i], sizeof (it)->tables[i]
#define PART(it, p) (it)->part[p], (it)->part_len[p]

static void
begin_run (run * it)
{
  static const uint32_t extent[3] = { 5, 4, 3 }, periodic[3] = { 0, 1, 0 };
  uint32_t            leaves[2][TREES], k, p;
  vejgodat_length     length;

  it->mesh = make_brick (extent, periodic);
  for (k = 0; k < TREES; ++k) {
    vejgodat_mesh_set_region (it->mesh, k, 67 * k % VEJGODAT_REGIONS);
    memset (vejgodat_mesh_writable_data (it->mesh, k), (int) k, 24);
    leaves[0][k] = 1 + k % 5;
    leaves[1][k] = k < 10 ? 4 : 1;
  }
  EXPECT (vejgodat_check_mesh (MESH (it)) == VEJGODAT_OK);
  for (k = 0; k < 2; ++k) {
    EXPECT (vejgodat_table_from_leaves (RANKS, leaves[k], TREES,
                                        TABLE (it, k)).refusal
            == VEJGODAT_OK);
  }
  for (p = 0; p < RANKS; ++p) {
    length = vejgodat_part_length (MESH (it), TABLE (it, 0), p);
    it->part_len[p] = (size_t) length.length;
    it->part[p] = room (it->part_len[p]);
    length = vejgodat_cut_part (MESH (it), TABLE (it, 0), p, PART (it, p));
    EXPECT (length.refusal == VEJGODAT_OK);
  }
}

static void
end_run (run * it)
{
  uint32_t            p;

  for (p = 0; p < RANKS; ++p) {
    free (it->part[p]);
  }
  free (it->mesh);
}

static void
parts (void)
{
  static uint32_t     counts[VEJGODAT_REGIONS];
  uint8_t            *part, *before;
  const uint8_t      *record;
  uint32_t            p, i, n, k, first;
  run                 it;

  begin_run (&it);
  for (p = 0; p < RANKS; ++p) {
    part = it.part[p];
    EXPECT (vejgodat_part_dimension (part) == 3);
    EXPECT (vejgodat_part_K (part) == TREES);
    EXPECT (vejgodat_part_ranks (part) == RANKS);
    EXPECT (vejgodat_part_rank (part) == p);
    n = vejgodat_part_trees (part);
    first = vejgodat_part_first (part);
    EXPECT (first == vejgodat_table_range (TABLE (&it, 0), p).first);
    EXPECT (n == vejgodat_table_range (TABLE (&it, 0), p).count && n > 0);
    EXPECT (vejgodat_part_ghosts (part) > 0);
    for (i = 0; i < n + vejgodat_part_ghosts (part); ++i) {
      k = vejgodat_part_number (part, i);
      record = it.mesh + VEJGODAT_MESH_BYTES (k);
      EXPECT (vejgodat_part_region (part, i) == 67 * k % VEJGODAT_REGIONS);
      EXPECT (vejgodat_mesh_region (it.mesh, k)
              == vejgodat_part_region (part, i));
      if (i < n) {
        EXPECT (k == first + i);
        EXPECT (memcmp (vejgodat_part_data (part, i), record + 40, 24) == 0);
        EXPECT (vejgodat_mesh_data (it.mesh, k) == record + 40);
        EXPECT (vejgodat_part_writable_data (part, i)
                == vejgodat_part_data (part, i));
      }
    }

    /* regions and data written: nothing else changes, and the part stays sound */
    before = copy_of (PART (&it, p));
    for (i = 0; i < n + vejgodat_part_ghosts (part); ++i) {
      vejgodat_part_set_region (part, i, i % 7);
      EXPECT (vejgodat_part_region (part, i) == i % 7);
      if (i < n) {
        memset (vejgodat_part_writable_data (part, i), 255, 24);
      }
    }
    EXPECT (vejgodat_check_part (PART (&it, p), TABLE (&it, 0), p)
            == VEJGODAT_OK);
    EXPECT (vejgodat_region_counts (PART (&it, p), TABLE (&it, 0), p, counts,
                                    VEJGODAT_REGIONS) == VEJGODAT_OK);
    for (i = 0; i < VEJGODAT_REGIONS; ++i) {
      EXPECT (counts[i] == (i < 7 ? (n + 6 - i) / 7 : 0));
    }
    for (i = 0; i < n + vejgodat_part_ghosts (part); ++i) {
      k = vejgodat_part_number (part, i);
      vejgodat_part_set_region (part, i, 67 * k % VEJGODAT_REGIONS);
      if (i < n) {
        memset (vejgodat_part_writable_data (part, i), (int) k, 24);
      }
    }
    EXPECT (memcmp (part, before, it.part_len[p]) == 0);
    free (before);
    vejgodat_part_set_region (part, n, VEJGODAT_REGIONS);
    EXPECT (vejgodat_check_part (PART (&it, p), TABLE (&it, 0), p)
            == VEJGODAT_PART);
  }
  vejgodat_mesh_set_region (it.mesh, TREES - 1, VEJGODAT_REGIONS - 1);
  EXPECT (vejgodat_check_mesh (MESH (&it)) == VEJGODAT_OK);
  vejgodat_mesh_set_region (it.mesh, TREES - 1, VEJGODAT_REGIONS);
  EXPECT (vejgodat_check_mesh (MESH (&it)) == VEJGODAT_MESH);
  end_run (&it);
}

/* How many messages a walk finds; what it gives is inside, and it ends where it says. */
static uint32_t
walk (const uint8_t * all, size_t all_len, size_t * at)
{
  const uint8_t      *message;
  uint32_t            count = 0;
  size_t              from;

  *at = 0;
  for (;;) {
    from = *at;
    message = vejgodat_next_message (all, all_len, at);
    if (message == NULL) {
      break;
    }
    ++count;
    EXPECT (message == all + from && *at <= all_len);
    EXPECT (*at - from == vejgodat_message_bytes (message));
    EXPECT (*at - from >= 32);
  }
  EXPECT (*at == from);
  return count;
}

/* The walk over any bytes finds those messages that deliver_all tells apart, which takes what is left as one more. */
static void
walk_as_delivered (uint8_t * area, size_t area_len, const uint8_t * all,
                   size_t all_len)
{
  static uint32_t     answers[4096];
  size_t              at;
  const uint32_t      count = walk (all, all_len, &at);
  vejgodat_count      told;

  told = vejgodat_deliver_all (area, area_len, all, all_len, answers, 4096);
  EXPECT (told.refusal == VEJGODAT_OK);
  EXPECT (told.count == count + (at < all_len));
}

static void
messages (void)
{
  uint8_t            *all, *single, *copy, *area;
  const uint8_t      *message;
  uint32_t            p, ranks[RANKS], i, q, sends = 0;
  size_t              at, end, length, area_len;
  vejgodat_many       many;
  vejgodat_ranks      set;
  vejgodat_range      sent;
  run                 it;

  begin_run (&it);
  area_len = (size_t) vejgodat_area_length (TABLE (&it, 0), TABLE (&it, 1), 1,
                                            3).length;
  area = room (area_len);
  for (p = 0; p < RANKS; ++p) {
    many = vejgodat_build_all_length (PART (&it, p), TABLE (&it, 0),
                                      TABLE (&it, 1), p);
    length = (size_t) many.length;
    all = room (length);
    many = vejgodat_build_all (PART (&it, p), TABLE (&it, 0), TABLE (&it, 1),
                               p, 77, all, length);
    EXPECT (many.refusal == VEJGODAT_OK && many.length == length);
    set = vejgodat_send_set (TABLE (&it, 0), TABLE (&it, 1), p, ranks, RANKS);
    EXPECT (set.count == many.count && many.count > 0);
    sends += many.count;

    for (at = 0, i = 0; i < many.count; ++i) {
      end = at;
      message = vejgodat_next_message (all, length, &at);
      EXPECT (message == all + end);
      q = ranks[i];
      EXPECT (vejgodat_message_epoch (message) == 77);
      EXPECT (vejgodat_message_dimension (message) == 3);
      EXPECT (vejgodat_message_K (message) == TREES);
      EXPECT (vejgodat_message_ranks (message) == RANKS);
      EXPECT (vejgodat_message_sender (message) == p);
      EXPECT (vejgodat_message_receiver (message) == q);
      sent = vejgodat_trees_sent (TABLE (&it, 0), TABLE (&it, 1), p, q);
      EXPECT (vejgodat_message_trees (message) == sent.count);
      EXPECT (at - end == VEJGODAT_MESSAGE_BYTES
              (sent.count, vejgodat_message_ghosts (message)));
      EXPECT (vejgodat_message_bytes (message) == at - end);
      EXPECT (vejgodat_check_message (message, at - end) == VEJGODAT_OK);
      single = room (at - end);
      EXPECT (vejgodat_build_message (PART (&it, p), TABLE (&it, 0),
                                      TABLE (&it, 1), p, q, 77, single,
                                      at - end).length == at - end);
      EXPECT (memcmp (message, single, at - end) == 0);
      free (single);
    }
    EXPECT (at == length);
    EXPECT (vejgodat_next_message (all, length, &at) == NULL && at == length);

    /* from anywhere past the end */
    at = length + 1;
    EXPECT (vejgodat_next_message (all, length, &at) == NULL);
    EXPECT (at == length + 1);
    at = SIZE_MAX;
    EXPECT (vejgodat_next_message (all, length, &at) == NULL);
    EXPECT (at == SIZE_MAX);

    /* cut short anywhere; damaged in the header, and anywhere */
    EXPECT (vejgodat_open_area (TABLE (&it, 0), TABLE (&it, 1), 1, 3, 77,
                                area, area_len).refusal == VEJGODAT_OK);
    for (end = 0; end < length; ++end) {
      copy = copy_of (all, end);
      EXPECT (walk (copy, end, &at) < many.count);
      walk_as_delivered (area, area_len, copy, end);
      free (copy);
    }
    for (i = 0; i < 400; ++i) {
      end = i % 4 == 0 ? below ((uint32_t) length + 1) : length;
      copy = copy_of (all, end);
      for (q = 0; q < 1 + i % 3 && end > 31; ++q) {
        copy[24 + below (8)] = (uint8_t) (i % 2 ? below (256) : below (3));
        copy[below ((uint32_t) end)] = (uint8_t) below (256);
      }
      walk_as_delivered (area, area_len, copy, end);
      free (copy);
    }
    /* the shortest and the longest that a header can say */
    memset (all + 24, 0, 8);
    EXPECT (walk (all, 32, &at) == 1 && at == 32);
    EXPECT (walk (all, 31, &at) == 0 && at == 0);
    memset (all + 24, 255, 8);
    EXPECT (vejgodat_message_bytes (all)
            == 32 + 104 * (uint64_t) 4294967295u);
    EXPECT (walk (all, length, &at) == 0 && at == 0);
    free (all);
  }
  EXPECT (sends > RANKS + 1);
  EXPECT (walk (NULL, 0, &at) == 0 && at == 0);
  free (area);
  end_run (&it);
}

/* After each delivery the area's header tells what the part would take; the close takes it once all are heard. */
static void
areas (void)
{
  uint8_t            *area, *message, *part, *cut;
  uint32_t            q, i, ranks[RANKS];
  size_t              area_len, length, held;
  vejgodat_ranks      set;
  vejgodat_length     answer;
  run                 it;

  begin_run (&it);
  for (q = 0; q < RANKS; ++q) {
    area_len = (size_t) vejgodat_area_length (TABLE (&it, 0), TABLE (&it, 1),
                                              q, 3).length;
    area = room (area_len);
    answer = vejgodat_open_area (TABLE (&it, 0), TABLE (&it, 1), q, 3, 5,
                                 area, area_len);
    EXPECT (answer.refusal == VEJGODAT_OK);
    set = vejgodat_receive_set (TABLE (&it, 0), TABLE (&it, 1), q, ranks,
                                RANKS);
    held = 0;
    for (i = 0; i <= set.count; ++i) {
      length = (size_t) vejgodat_area_part_bytes (area);
      EXPECT (length == VEJGODAT_PART_BYTES
              (vejgodat_table_range (TABLE (&it, 1), q).count, held));
      part = room (length);
      if (i < set.count) {
        /* not all are heard, however long the buffer is */
        EXPECT (vejgodat_close_area (area, area_len, part, length).refusal
                == VEJGODAT_MISSING);
        answer = vejgodat_message_length (PART (&it, ranks[i]),
                                          TABLE (&it, 0), TABLE (&it, 1),
                                          ranks[i], q);
        message = room ((size_t) answer.length);
        answer = vejgodat_build_message (PART (&it, ranks[i]),
                                         TABLE (&it, 0), TABLE (&it, 1),
                                         ranks[i], q, 5, message,
                                         (size_t) answer.length);
        EXPECT (answer.refusal == VEJGODAT_OK);
        EXPECT (vejgodat_deliver (area, area_len, message,
                                  (size_t) answer.length) == VEJGODAT_OK);
        held += vejgodat_message_ghosts (message);
        free (message);
      }
      else {
        EXPECT (vejgodat_part_of_area_length (area, area_len).length
                == length);
        EXPECT (vejgodat_close_area (area, area_len, part, length - 1).refusal
                == VEJGODAT_BUFFER);
        EXPECT (vejgodat_close_area (area, area_len, part, length).length
                == length);
        cut = room (length);
        EXPECT (vejgodat_cut_part (MESH (&it), TABLE (&it, 1), q, cut,
                                   length).length == length);
        EXPECT (memcmp (part, cut, length) == 0);
        free (cut);
      }
      free (part);
    }
    free (area);
  }
  end_run (&it);
}

/* A fault in words, into buffers of every length: as much of what is expected as fits, and nothing past it. */
static void
says (vejgodat_fault fault, const char *expected)
{
  const size_t        length = strlen (expected);
  size_t              have, kept;
  char               *text;

  EXPECT (vejgodat_write_fault (fault, NULL, 0) == length);
  for (have = 1; have < length + 3; ++have) {
    text = room (have);
    memset (text, 0x5a, have);
    if (vejgodat_write_fault (fault, text, have) != length
        || memchr (text, '\0', have) == NULL) {
      printf ("helpers.c: not so: %s, into %lu characters\n", expected,
              (unsigned long) have);
      ++wrong;
      free (text);
      return;
    }
    kept = have - 1 < length ? have - 1 : length;
    if (strlen (text) != kept || memcmp (text, expected, kept) != 0) {
      printf ("helpers.c: not so: %s, but %s\n", expected, text);
      ++wrong;
    }
    if (have > length + 1) {
      EXPECT (text[length + 1] == 0x5a);
    }
    free (text);
  }
}

static vejgodat_fault
fault_of (uint32_t refusal, uint32_t fault, uint32_t kind, uint32_t at,
          uint32_t face)
{
  vejgodat_fault      made;

  made.refusal = refusal;
  made.fault = fault;
  made.kind = kind;
  made.at = at;
  made.face = face;
  return made;
}

static void
faults (void)
{
  static const uint32_t places[6] =
    { 0, 9, 10, 1048575, 1000000000, 4294967295u };
  uint8_t             mesh[VEJGODAT_MESH_BYTES (3)], table[32];
  uint32_t            i, kind, refusal;
  char                expected[300];

  /* made by the calls */
  vejgodat_mesh_set_header (mesh, 2, 3);
  for (i = 0; i < 3; ++i) {
    vejgodat_mesh_set_tree (mesh, i, VEJGODAT_TRIANGLE);
  }
  says (vejgodat_mesh_fault (mesh, sizeof mesh), "no fault");
  says (vejgodat_mesh_fault (mesh, sizeof mesh - 1), "header or length");
  vejgodat_mesh_set_link (mesh, 1, 2, 2, 0, 1);
  vejgodat_mesh_set_boundary (mesh, 1, 2);
  says (vejgodat_mesh_fault (mesh, sizeof mesh),
        "tree 2, face 0: link not answered");
  mesh[8 + 5] = 1;
  says (vejgodat_mesh_fault (mesh, sizeof mesh),
        "tree 0: zero bytes not zero, or region not below 4,096");
  memset (table, 0, sizeof table);
  says (vejgodat_table_fault (table, 24),
        "entry 2: K outside its limits (1 to 1,048,576)");
  table[16] = 1;
  table[8] = 2;
  says (vejgodat_table_fault (table, 24),
        "rank 1: entry above K or below -K");
  says (vejgodat_table_fault (table, 31),
        vejgodat_refusal_text (VEJGODAT_RANKS));
  table[8] = 0;
  says (vejgodat_part_fault (mesh, 31, table, 24, 0), "header or length");
  says (vejgodat_part_fault (mesh, 31, table, 24, 2),
        vejgodat_refusal_text (VEJGODAT_INDEX));

  /* every kind, and one that there is not, at places of all lengths */
  for (kind = VEJGODAT_FAULT_FIRST; kind <= VEJGODAT_FAULT_BESIDE + 1; ++kind) {
    for (i = 0; i < 6 && kind != VEJGODAT_FAULT_HEADER; ++i) {
      if (vejgodat_fault_has_face (kind)) {
        snprintf (expected, sizeof expected, "tree %lu, face %lu: %s",
                  (unsigned long) places[i], (unsigned long) i,
                  vejgodat_fault_text (kind));
        says (fault_of (0, VEJGODAT_MESH, kind, places[i], i), expected);
      }
      else if (kind != VEJGODAT_FAULT_TREES) {
        snprintf (expected, sizeof expected, "rank %lu: %s",
                  (unsigned long) places[i], vejgodat_fault_text (kind));
        says (fault_of (0, VEJGODAT_TABLE, kind, places[i], 9), expected);
        memcpy (expected, "tree", 4);
        says (fault_of (0, VEJGODAT_MESH, kind, places[i], 9), expected);
        snprintf (expected, sizeof expected, "record %lu: %s",
                  (unsigned long) places[i], vejgodat_fault_text (kind));
        says (fault_of (0, VEJGODAT_PART, kind, places[i], 9), expected);
      }
    }
  }
  for (refusal = 1; refusal < 36; ++refusal) {
    says (fault_of (refusal, 0, 0, 0, 0), vejgodat_refusal_text (refusal));
    EXPECT (strlen (vejgodat_refusal_text (refusal)) < 200);
  }
  for (kind = 0; kind <= VEJGODAT_FAULT_BESIDE + 1; ++kind) {
    EXPECT (vejgodat_write_fault (fault_of (0, VEJGODAT_PART, kind,
                                            4294967295u, 4294967295u), NULL,
                                  0) < 200);
  }
}

int
main (void)
{
  numbers ();
  shapes ();
  links ();
  bricks ();
  parts ();
  messages ();
  areas ();
  faults ();
  return wrong == 0 ? 0 : 1;
}
