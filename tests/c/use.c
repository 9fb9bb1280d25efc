/* Uses every function of include/vejgodat.h once or more, on document 01's examples, and checks the answers.
 * It says what differs, and its exit status is 0 only where nothing did. */
#include <vejgodat.h>

#include <stdio.h>
#include <string.h>

static int          wrong = 0;

#define EXPECT(condition)                                               \
  do {                                                                  \
    if (!(condition)) {                                                 \
      printf ("use.c:%d: not so: %s\n", __LINE__, #condition);          \
      ++wrong;                                                          \
    }                                                                   \
  } while (0)

static void
version (void)
{
  EXPECT (vejgodat_version () == VEJGODAT_VERSION);
}

/* Every number has a text, and of 0 to 33 only those that no call gives have the same. */
static void
texts (void)
{
  uint32_t            i, j;

  for (i = 0; i < 40; ++i) {
    EXPECT (strlen (vejgodat_refusal_text (i)) > 7);
    for (j = 0; j < i && i <= 33; ++j) {
      EXPECT (strcmp (vejgodat_refusal_text (i), vejgodat_refusal_text (j))
              || !strncmp (vejgodat_refusal_text (i), "reserved", 8));
    }
  }
  EXPECT (strcmp (vejgodat_refusal_text (33), vejgodat_refusal_text (34)));
  EXPECT (!strcmp (vejgodat_refusal_text (34),
                   vejgodat_refusal_text (4294967295u)));
}

/* Write the little-endian bytes of a table. */
static size_t
put_table (uint8_t * bytes, int ranks, const int64_t * entries)
{
  int                 p, i;

  for (p = 0; p <= ranks; ++p) {
    for (i = 0; i < 8; ++i) {
      bytes[8 * p + i] = (uint8_t) ((uint64_t) entries[p] >> (8 * i));
    }
  }
  return VEJGODAT_TABLE_BYTES (ranks);
}

static void
layout (void)
{
  EXPECT (sizeof (vejgodat_range) == 12);
  EXPECT (sizeof (vejgodat_sender) == 8);
  EXPECT (sizeof (vejgodat_ranks) == 16);
  EXPECT (sizeof (vejgodat_length) == 16);
  EXPECT (offsetof (vejgodat_length, length) == 8);
}

static void
check_table (void)
{
  static const int64_t valid[5][4] =
    { {0, 1}, {0, -1, 1}, {0, 0, 0, 5}, {0, 3, -3, 5}, {0, -3, -3, 5} };
  static const int    valid_ranks[5] = { 1, 2, 3, 3, 3 };
  static const int64_t refused[4][4] =
    { {0, 0}, {-1, 1}, {0, 4, 3, 5}, {0, -4, -3, 5} };
  static const int    refused_ranks[4] = { 1, 1, 3, 3 };
  static const int64_t shortened[4] = { 0, 2, 4, 6 };
  uint8_t             table[32];
  size_t              length;
  int                 i;

  for (i = 0; i < 5; ++i) {
    length = put_table (table, valid_ranks[i], valid[i]);
    EXPECT (vejgodat_check_table (table, length) == VEJGODAT_OK);
  }
  for (i = 0; i < 4; ++i) {
    length = put_table (table, refused_ranks[i], refused[i]);
    EXPECT (vejgodat_check_table (table, length) == VEJGODAT_TABLE);
  }
  EXPECT (vejgodat_check_table (table, 31) == VEJGODAT_RANKS);
  EXPECT (vejgodat_check_table (NULL, 0) == VEJGODAT_RANKS);
  /* one entry short, it is a table of one rank less */
  put_table (table, 3, shortened);
  EXPECT (vejgodat_check_table (table, 32) == VEJGODAT_OK);
  EXPECT (vejgodat_check_table (table, 24) == VEJGODAT_OK);
  EXPECT (vejgodat_table_range (table, 24, 2).refusal == VEJGODAT_INDEX);
}

static void
table_length (void)
{
  vejgodat_length     answer;

  answer = vejgodat_table_length (3);
  EXPECT (answer.refusal == VEJGODAT_OK && answer.length == 32);
  answer = vejgodat_table_length (VEJGODAT_MAX_RANKS);
  EXPECT (answer.refusal == VEJGODAT_OK && answer.length == 131080);
  answer = vejgodat_table_length (VEJGODAT_MAX_RANKS + 1);
  EXPECT (answer.refusal == VEJGODAT_RANKS && answer.length == 0);
}

/* Rank 1 is empty, and tree 2 is on ranks 0 and 2. */
static void
table_range (void)
{
  static const int64_t entries[4] = { 0, 3, -3, 5 };
  static const uint32_t first[3] = { 0, 3, 2 }, count[3] = { 3, 0, 3 };
  uint8_t             table[32];
  vejgodat_range      range;
  uint32_t            p;

  put_table (table, 3, entries);
  for (p = 0; p < 3; ++p) {
    range = vejgodat_table_range (table, sizeof table, p);
    EXPECT (range.refusal == VEJGODAT_OK);
    EXPECT (range.first == first[p] && range.count == count[p]);
  }
  range = vejgodat_table_range (table, sizeof table, 3);
  EXPECT (range.refusal == VEJGODAT_INDEX);
  EXPECT (range.first == 0 && range.count == 0);
}

static void
write_table (void)
{
  static const int64_t entries[4] = { 0, 3, -3, 5 };
  static const uint32_t first[3] = { 0, 4294967295u, 2 };
  static const uint32_t count[3] = { 3, 0, 3 }, gap[3] = { 1, 0, 3 };
  uint8_t             table[32], out[40], before[40];
  vejgodat_length     answer;

  put_table (table, 3, entries);
  memset (out, 0x5a, sizeof out);
  memset (before, 0x5a, sizeof before);

  answer = vejgodat_write_table (3, first, 3, gap, 3, out, sizeof out);
  EXPECT (answer.refusal == VEJGODAT_PARTITION && answer.length == 0);
  answer = vejgodat_write_table (3, first, 3, count, 2, out, sizeof out);
  EXPECT (answer.refusal == VEJGODAT_PARTITION && answer.length == 0);
  answer = vejgodat_write_table (3, first, 3, count, 3, out, 31);
  EXPECT (answer.refusal == VEJGODAT_BUFFER && answer.length == 0);
  EXPECT (memcmp (out, before, sizeof out) == 0);

  answer = vejgodat_write_table (3, first, 3, count, 3, out, sizeof out);
  EXPECT (answer.refusal == VEJGODAT_OK && answer.length == 32);
  EXPECT (memcmp (out, table, 32) == 0);
  EXPECT (memcmp (out + 32, before, 8) == 0);
}

static void
table_from_leaves (void)
{
  static const int64_t entries[2][4] = { {0, -1, -2, 2}, {0, 1, 2, 2} };
  static const uint32_t leaves[2][2] = { {4, 4}, {1, 1} }, none[2] = { 4, 0 };
  uint8_t             table[32], out[32];
  vejgodat_length     answer;
  int                 i;

  for (i = 0; i < 2; ++i) {
    put_table (table, 3, entries[i]);
    answer = vejgodat_table_from_leaves (3, leaves[i], 2, out, sizeof out);
    EXPECT (answer.refusal == VEJGODAT_OK && answer.length == 32);
    EXPECT (memcmp (out, table, 32) == 0);
  }
  answer = vejgodat_table_from_leaves (3, none, 2, out, sizeof out);
  EXPECT (answer.refusal == VEJGODAT_PARTITION && answer.length == 0);
  EXPECT (memcmp (out, table, 32) == 0);
}

/* The example of the program `plan`. */
static void
plan (void)
{
  static const int64_t old_entries[4] = { 0, -2, 3, 5 };
  static const int64_t new_entries[4] = { 0, -3, -4, 5 };
  /* sender, receiver, first and last tree */
  static const uint32_t moves[5][4] =
    { {0, 0, 0, 1}, {1, 0, 2, 2}, {1, 1, 2, 2}, {2, 1, 3, 3}, {2, 2, 3, 4} };
  static const uint32_t sends[3][2] = { {0, 9}, {0, 1}, {1, 2} };
  static const uint32_t receives[3][2] = { {0, 1}, {1, 2}, {2, 9} };
  static const uint32_t send_count[3] = { 1, 2, 2 };
  static const uint32_t receive_count[3] = { 2, 2, 1 };
  uint8_t             old_table[32], new_table[32];
  uint32_t            list[2], p, q, k, count;
  vejgodat_range      range;
  vejgodat_sender     sender;
  vejgodat_ranks      ranks;
  int                 i;

  put_table (old_table, 3, old_entries);
  put_table (new_table, 3, new_entries);

  count = 0;
  for (p = 0; p < 3; ++p) {
    for (q = 0; q < 3; ++q) {
      range = vejgodat_trees_sent (old_table, 32, new_table, 32, p, q);
      EXPECT (range.refusal == VEJGODAT_OK);
      count += range.count > 0;
    }
  }
  EXPECT (count == 5);
  for (i = 0; i < 5; ++i) {
    p = moves[i][0];
    q = moves[i][1];
    range = vejgodat_trees_sent (old_table, 32, new_table, 32, p, q);
    EXPECT (range.first == moves[i][2]);
    EXPECT (range.first + range.count == moves[i][3] + 1);
    for (k = moves[i][2]; k <= moves[i][3]; ++k) {
      sender = vejgodat_sender_of (old_table, 32, new_table, 32, k, q);
      EXPECT (sender.refusal == VEJGODAT_OK && sender.sender == (int32_t) p);
    }
  }
  sender = vejgodat_sender_of (old_table, 32, new_table, 32, 4, 0);
  EXPECT (sender.refusal == VEJGODAT_OK && sender.sender == -1);
  sender = vejgodat_sender_of (old_table, 32, new_table, 32, 5, 0);
  EXPECT (sender.refusal == VEJGODAT_INDEX && sender.sender == 0);

  for (p = 0; p < 3; ++p) {
    list[0] = list[1] = 9;
    ranks = vejgodat_send_set (old_table, 32, new_table, 32, p, list, 2);
    EXPECT (ranks.refusal == VEJGODAT_OK && ranks.count == send_count[p]);
    EXPECT (list[0] == sends[p][0] && list[1] == sends[p][1]);
    EXPECT (ranks.smallest == (int32_t) list[0]);
    EXPECT (ranks.largest == (int32_t) list[ranks.count - 1]);

    list[0] = list[1] = 9;
    ranks = vejgodat_receive_set (old_table, 32, new_table, 32, p, list, 2);
    EXPECT (ranks.refusal == VEJGODAT_OK && ranks.count == receive_count[p]);
    EXPECT (list[0] == receives[p][0] && list[1] == receives[p][1]);
    EXPECT (ranks.smallest == (int32_t) list[0]);
    EXPECT (ranks.largest == (int32_t) list[ranks.count - 1]);
  }

  list[0] = 9;
  ranks = vejgodat_send_set (old_table, 32, new_table, 32, 1, list, 1);
  EXPECT (ranks.refusal == VEJGODAT_BUFFER && ranks.count == 0);
  EXPECT (ranks.smallest == 0 && ranks.largest == 0 && list[0] == 9);
  ranks = vejgodat_receive_set (old_table, 32, new_table, 24, 1, list, 1);
  EXPECT (ranks.refusal == VEJGODAT_TABLE);
  ranks = vejgodat_receive_set (old_table, 31, new_table, 24, 1, list, 1);
  EXPECT (ranks.refusal == VEJGODAT_RANKS);

  /* one table as old and new: each rank keeps its trees */
  for (p = 0; p < 3; ++p) {
    ranks = vejgodat_send_set (old_table, 32, old_table, 32, p, list, 2);
    EXPECT (ranks.refusal == VEJGODAT_OK && ranks.count == 1);
    EXPECT (list[0] == p);
  }
}

/* Rank 0 has one tree, shared with no smaller rank, and still sends nothing. */
static void
empty_set (void)
{
  static const int64_t old_entries[3] = { 0, -1, 2 };
  static const int64_t new_entries[3] = { 0, 0, 2 };
  uint8_t             old_table[24], new_table[24];
  vejgodat_ranks      ranks;

  put_table (old_table, 2, old_entries);
  put_table (new_table, 2, new_entries);
  ranks = vejgodat_send_set (old_table, 24, new_table, 24, 0, NULL, 0);
  EXPECT (ranks.refusal == VEJGODAT_OK && ranks.count == 0);
  EXPECT (ranks.smallest == -1 && ranks.largest == -2);
}

/* Write the little-endian bytes of a number. */
static void
put_number (uint8_t * bytes, uint32_t number)
{
  int                 i;

  for (i = 0; i < 4; ++i) {
    bytes[i] = (uint8_t) (number >> (8 * i));
  }
}

/* Three triangles: face 0 of each meets face 1 of the next, face 2 is the boundary. */
static void
put_triangles (uint8_t * mesh)
{
  uint8_t            *record;
  uint32_t            k;
  int                 face;

  memset (mesh, 0, VEJGODAT_MESH_BYTES (3));
  put_number (mesh, 2);
  put_number (mesh + 4, 3);
  for (k = 0; k < 3; ++k) {
    record = mesh + VEJGODAT_MESH_BYTES (k);
    put_number (record, k);
    record[4] = 1;
    put_number (record + 8, (k + 1) % 3);
    put_number (record + 12, (k + 2) % 3);
    put_number (record + 16, k);
    for (face = 3; face < 6; ++face) {
      put_number (record + 8 + 4 * face, 4294967295u);
    }
    record[32] = 1;
    record[33] = 0;
    record[34] = 2;
    memset (record + 40, 0xa0 + (int) k, 24);
  }
}

static void
corners (void)
{
  EXPECT (vejgodat_corners (0, 3) == 2);
  EXPECT (vejgodat_corners (1, 3) == 0);
  EXPECT (vejgodat_corners (2, 5) == 4);
  EXPECT (vejgodat_corners (4, 2) == 4 && vejgodat_corners (4, 3) == 3);
  EXPECT (vejgodat_corners (5, 3) == 3 && vejgodat_corners (5, 4) == 4);
  EXPECT (vejgodat_corners (6, 0) == 0 && vejgodat_corners (2, 6) == 0);
}

static void
check_mesh (void)
{
  uint8_t             mesh[VEJGODAT_MESH_BYTES (3)];

  put_triangles (mesh);
  EXPECT (vejgodat_check_mesh (mesh, sizeof mesh) == VEJGODAT_OK);

  /* face 0 of tree 1 with another orientation than face 1 of tree 2 */
  mesh[VEJGODAT_MESH_BYTES (1) + 32] = 1 * 4 + 1;
  EXPECT (vejgodat_check_mesh (mesh, sizeof mesh) == VEJGODAT_MESH);
  /* with the same, they meet again */
  mesh[VEJGODAT_MESH_BYTES (2) + 33] = 1 * 4 + 0;
  EXPECT (vejgodat_check_mesh (mesh, sizeof mesh) == VEJGODAT_OK);
  EXPECT (vejgodat_check_mesh (mesh, sizeof mesh - 1) == VEJGODAT_MESH);
  EXPECT (vejgodat_check_mesh (NULL, 0) == VEJGODAT_MESH);
}

/* Face f of tree k of a mesh of hexahedra meets face g of tree n, with orientation 0. */
static int
meets (const uint8_t * mesh, uint32_t k, uint32_t f, uint32_t n, uint32_t g)
{
  const uint8_t      *record = mesh + VEJGODAT_MESH_BYTES (k);

  return record[8 + 4 * f] == n && record[32 + f] == g;
}

/* Three by one by two hexahedra, the second axis periodic. */
static void
bricks (void)
{
  static const uint8_t zero[26] = { 0 };
  uint8_t             mesh[VEJGODAT_MESH_BYTES (6) + 1];
  vejgodat_length     answer;
  uint32_t            k;

  answer = vejgodat_brick_length (3, 1, 2);
  EXPECT (answer.refusal == VEJGODAT_OK && answer.length == sizeof mesh - 1);
  memset (mesh, 7, sizeof mesh);
  answer = vejgodat_write_brick (3, 1, 2, 0, 9, 0, mesh, sizeof mesh);
  EXPECT (answer.refusal == VEJGODAT_OK && answer.length == sizeof mesh - 1);
  EXPECT (mesh[sizeof mesh - 1] == 7);
  EXPECT (vejgodat_check_mesh (mesh, sizeof mesh - 1) == VEJGODAT_OK);
  EXPECT (meets (mesh, 0, 0, 0, 0) && meets (mesh, 0, 1, 1, 0));
  EXPECT (meets (mesh, 2, 0, 1, 1) && meets (mesh, 2, 1, 2, 1));
  EXPECT (meets (mesh, 4, 4, 1, 5) && meets (mesh, 4, 5, 4, 5));
  for (k = 0; k < 6; ++k) {
    /* alone on a periodic axis */
    EXPECT (meets (mesh, k, 2, k, 3) && meets (mesh, k, 3, k, 2));
    EXPECT (memcmp (mesh + VEJGODAT_MESH_BYTES (k) + 38, zero, 26) == 0);
  }

  answer = vejgodat_write_brick (3, 1, 2, 0, 0, 0, mesh, sizeof mesh - 2);
  EXPECT (answer.refusal == VEJGODAT_BUFFER && answer.length == 0);
  answer = vejgodat_write_brick (3, 0, 2, 0, 0, 0, mesh, sizeof mesh);
  EXPECT (answer.refusal == VEJGODAT_EXTENT && answer.length == 0);
  EXPECT (meets (mesh, 0, 2, 0, 3));
  /* before the buffer */
  answer = vejgodat_write_brick (3, 1, VEJGODAT_MAX_EXTENT + 1, 0, 0, 0, NULL, 0);
  EXPECT (answer.refusal == VEJGODAT_EXTENT && answer.length == 0);
  answer = vejgodat_brick_length (VEJGODAT_MAX_EXTENT + 1, 1, 1);
  EXPECT (answer.refusal == VEJGODAT_EXTENT && answer.length == 0);
}

/* A row of three hexahedra, its other axes periodic with extent 1, on two ranks: of what kind each face is, by the
 * reader and by the checked call. A tree that meets itself at the opposite face isn't at the boundary. */
static void
kinds (void)
{
  static const int64_t entries[3] = { 0, 2, 3 };
  static const uint32_t expected[3][6] = {
    {0, 2, 2, 2, 2, 2}, {2, 3, 2, 2, 2, 2}, {3, 0, 2, 2, 2, 2}
  };
  uint8_t             mesh[VEJGODAT_MESH_BYTES (3)], table[24];
  uint8_t             part[VEJGODAT_PART_BYTES (3, 0)];
  vejgodat_length     answer;
  vejgodat_neighbour  there;
  uint32_t            rank, i, face;

  put_table (table, 2, entries);
  answer = vejgodat_write_brick (3, 1, 1, 0, 1, 1, mesh, sizeof mesh);
  EXPECT (answer.refusal == VEJGODAT_OK);
  for (rank = 0; rank < 2; ++rank) {
    answer = vejgodat_cut_part (mesh, sizeof mesh, table, sizeof table, rank,
                                part, sizeof part);
    EXPECT (answer.refusal == VEJGODAT_OK);
    for (i = 0; i < vejgodat_part_trees (part); ++i) {
      for (face = 0; face < 6; ++face) {
        there = vejgodat_neighbour_of (part, (size_t) answer.length, table,
                                       sizeof table, rank, i, face);
        EXPECT (there.refusal == VEJGODAT_OK);
        EXPECT (vejgodat_part_kind (part, i, face) == there.kind);
        EXPECT (there.kind == expected[vejgodat_part_number (part, i)][face]);
        EXPECT (face < 2 || vejgodat_part_neighbour (part, i, face) == i);
      }
    }
  }
}

static int
is_neighbour (vejgodat_neighbour got, uint32_t kind, uint32_t index,
              uint32_t face)
{
  return got.refusal == VEJGODAT_OK && got.shape == 1 && got.kind == kind
    && got.index == index && got.face == face && got.orientation == 0;
}

/* Rank 1 has trees 0 and 1 of the three triangles, and the ghost 2. */
static void
parts (void)
{
  static const int64_t entries[4] = { 0, -1, 2, 3 };
  /* dimension, K, P, rank, first tree, trees, ghosts, 0 */
  static const uint32_t words[8] = { 2, 3, 3, 1, 0, 2, 1, 0 };
  uint8_t             mesh[VEJGODAT_MESH_BYTES (3)], table[32];
  uint8_t             part[32 + 2 * 64 + 40 + 8], before[sizeof part];
  const uint8_t      *trees = part + 32, *ghosts = part + 32 + 2 * 64;
  const size_t        part_len = sizeof part - 8;
  uint8_t             expected[32];
  vejgodat_length     answer;
  vejgodat_neighbour  there;
  vejgodat_found      found;
  uint32_t            k;
  int                 i;

  EXPECT (sizeof (vejgodat_neighbour) == 24);
  EXPECT (sizeof (vejgodat_found) == 16);
  EXPECT (offsetof (vejgodat_found, offset) == 8);

  put_triangles (mesh);
  put_table (table, 3, entries);
  memset (part, 0x5a, sizeof part);
  memset (before, 0x5a, sizeof before);

  answer = vejgodat_part_length (mesh, sizeof mesh, table, 32, 1);
  EXPECT (answer.refusal == VEJGODAT_OK && answer.length == part_len);
  answer = vejgodat_part_length (mesh, sizeof mesh, table, 32, 3);
  EXPECT (answer.refusal == VEJGODAT_INDEX && answer.length == 0);
  answer = vejgodat_part_length (mesh, sizeof mesh - 1, table, 32, 1);
  EXPECT (answer.refusal == VEJGODAT_MESH && answer.length == 0);
  answer =
    vejgodat_cut_part (mesh, sizeof mesh, table, 32, 1, part, part_len - 1);
  EXPECT (answer.refusal == VEJGODAT_BUFFER && answer.length == 0);
  EXPECT (memcmp (part, before, sizeof part) == 0);

  answer =
    vejgodat_cut_part (mesh, sizeof mesh, table, 32, 1, part, sizeof part);
  EXPECT (answer.refusal == VEJGODAT_OK && answer.length == part_len);
  EXPECT (memcmp (part + part_len, before, 8) == 0);
  for (i = 0; i < 8; ++i) {
    put_number (expected + 4 * i, words[i]);
  }
  EXPECT (memcmp (part, expected, 32) == 0);
  /* local indices are the global numbers here: the ghost comes third */
  EXPECT (memcmp (trees, mesh + 8, 2 * 64) == 0);
  EXPECT (memcmp (ghosts, mesh + 8 + 2 * 64, 40) == 0);

  EXPECT (vejgodat_check_part (part, part_len, table, 32, 1) == VEJGODAT_OK);
  EXPECT (vejgodat_check_part (part, sizeof part, table, 32, 1) == 8);
  EXPECT (vejgodat_check_part (part, part_len, table, 32, 0) == 8);
  EXPECT (vejgodat_check_part (NULL, 0, table, 32, 0) == 8);

  there = vejgodat_neighbour_of (part, part_len, table, 32, 1, 1, 0);
  EXPECT (is_neighbour (there, 3, 2, 1));
  there = vejgodat_neighbour_of (part, part_len, table, 32, 1, 1, 1);
  EXPECT (is_neighbour (there, 2, 0, 0));
  there = vejgodat_neighbour_of (part, part_len, table, 32, 1, 1, 2);
  EXPECT (is_neighbour (there, 0, 1, 2));
  there = vejgodat_neighbour_of (part, part_len, table, 32, 1, 1, 3);
  EXPECT (is_neighbour (there, 1, 0, 0));
  there = vejgodat_neighbour_of (part, part_len, table, 32, 1, 2, 0);
  EXPECT (there.refusal == VEJGODAT_INDEX && there.shape == 0);
  there = vejgodat_neighbour_of (part, part_len, table, 32, 1, 1, 6);
  EXPECT (there.refusal == VEJGODAT_INDEX && there.shape == 0);

  /* the readers of a sound part say the same, for trees and for the ghost */
  EXPECT (vejgodat_part_dimension (part) == 2);
  EXPECT (vejgodat_part_first (part) == 0);
  EXPECT (vejgodat_part_trees (part) == 2 && vejgodat_part_ghosts (part) == 1);
  for (k = 0; k < 3; ++k) {
    EXPECT (vejgodat_part_place (part, k) == VEJGODAT_PART_BYTES (k, 0));
    EXPECT (vejgodat_part_number (part, k) == k);
    EXPECT (vejgodat_part_shape (part, k) == 1);
    EXPECT (vejgodat_part_neighbour (part, k, 0) == (k + 1) % 3);
    EXPECT (vejgodat_part_face (part, k, 0) == 1);
    EXPECT (vejgodat_part_neighbour (part, k, 2) == k);
    EXPECT (vejgodat_part_face (part, k, 2) == 2);
    EXPECT (vejgodat_part_neighbour (part, k, 3) == VEJGODAT_UNUSED);
    for (i = 0; i < 4; ++i) {
      EXPECT (vejgodat_part_orientation (part, k, (uint32_t) i) == 0);
    }
  }
  for (i = 0; i < 6; ++i) {
    there = vejgodat_neighbour_of (part, part_len, table, 32, 1, 1,
                                   (uint32_t) i);
    EXPECT (vejgodat_part_kind (part, 1, (uint32_t) i) == there.kind);
  }
  EXPECT (vejgodat_part_data (part, 1)[23] == 0xa1);

  for (k = 0; k < 4; ++k) {
    found = vejgodat_lookup (trees, 2 * 64, ghosts, 40, k);
    EXPECT (found.which == (k < 2 ? 1 : k < 3 ? 2 : 0));
    EXPECT (found.offset == (k < 2 ? 64 * k : 0));
  }
  found = vejgodat_lookup (trees, 2 * 64 - 1, ghosts, 39, 1);
  EXPECT (found.which == 0 && found.offset == 0);
}

/* The example of document 01: who sends which of the three triangles and which ghosts to whom. */
static void
messages (void)
{
  static const int64_t old_entries[4] = { 0, 1, 3, 3 };
  static const int64_t new_entries[4] = { 0, -1, 2, 3 };
  /* sender, receiver, tree, number of ghosts, ghosts */
  static const uint32_t expected[4][6] =
    { {0, 0, 0, 2, 1, 2}, {0, 1, 0, 0, 9, 9}, {1, 1, 1, 1, 2, 9},
  {1, 2, 2, 2, 0, 1}
  };
  uint8_t             mesh[VEJGODAT_MESH_BYTES (3)];
  uint8_t             old_table[32], new_table[32], part[256];
  uint8_t             message[32 + 64 + 2 * 40 + 8], bytes[sizeof message];
  vejgodat_length     answer, length;
  uint32_t            p, q, ghost, count = 0;
  size_t              part_len, at;
  int                 i;

  put_triangles (mesh);
  put_table (old_table, 3, old_entries);
  put_table (new_table, 3, new_entries);
  for (p = 0; p < 3; ++p) {
    answer = vejgodat_cut_part (mesh, sizeof mesh, old_table, 32, p, part,
                                sizeof part);
    EXPECT (answer.refusal == VEJGODAT_OK);
    part_len = (size_t) answer.length;
    for (q = 0; q < 3; ++q) {
      memset (message, 0x5a, sizeof message);
      memset (bytes, 0x5a, sizeof bytes);
      length = vejgodat_message_length (part, part_len, old_table, 32,
                                        new_table, 32, p, q);
      answer = vejgodat_build_message (part, part_len, old_table, 32,
                                       new_table, 32, p, q, 7, message,
                                       sizeof message);
      EXPECT (answer.refusal == length.refusal);
      EXPECT (answer.length == length.length);
      for (i = 0; i < 4; ++i) {
        if (expected[i][0] == p && expected[i][1] == q) {
          break;
        }
      }
      if (i == 4) {
        /* no tree to send */
        EXPECT (answer.refusal == VEJGODAT_NOTHING && answer.length == 0);
        EXPECT (memcmp (message, bytes, sizeof message) == 0);
        continue;
      }
      ++count;
      /* epoch, dimension, K, P, sender, receiver, trees, ghosts */
      put_number (bytes, 7);
      put_number (bytes + 4, 2);
      put_number (bytes + 8, 3);
      put_number (bytes + 12, 3);
      put_number (bytes + 16, p);
      put_number (bytes + 20, q);
      put_number (bytes + 24, 1);
      put_number (bytes + 28, expected[i][3]);
      memcpy (bytes + 32, mesh + VEJGODAT_MESH_BYTES (expected[i][2]), 64);
      at = 32 + 64;
      for (ghost = 0; ghost < expected[i][3]; ++ghost) {
        memcpy (bytes + at,
                mesh + VEJGODAT_MESH_BYTES (expected[i][4 + ghost]), 40);
        at += 40;
      }
      EXPECT (answer.refusal == VEJGODAT_OK && answer.length == at);
      EXPECT (memcmp (message, bytes, sizeof message) == 0);
      EXPECT (vejgodat_check_message (message, at) == VEJGODAT_OK);
      EXPECT (vejgodat_check_message (message, at + 1) == VEJGODAT_LAYOUT);
      /* of the first tree: an orientation where it meets another tree is no matter of layout, one at the boundary is */
      message[32 + 32] ^= 4;
      EXPECT (vejgodat_check_message (message, at) == VEJGODAT_OK);
      message[32 + 34] ^= 4;
      EXPECT (vejgodat_check_message (message, at) == VEJGODAT_LAYOUT);

      memset (message, 0x5a, sizeof message);
      memset (bytes, 0x5a, sizeof bytes);
      answer = vejgodat_build_message (part, part_len, old_table, 32,
                                       new_table, 32, p, q, 7, message,
                                       at - 1);
      EXPECT (answer.refusal == VEJGODAT_BUFFER && answer.length == 0);
      EXPECT (memcmp (message, bytes, sizeof message) == 0);
      /* the part is that of the sender under the old table */
      answer = vejgodat_build_message (part, part_len, old_table, 32,
                                       new_table, 32, (p + 1) % 3, q, 7,
                                       message, sizeof message);
      EXPECT (answer.refusal == VEJGODAT_PART && answer.length == 0);
    }
  }
  EXPECT (count == 4);
  EXPECT (vejgodat_check_message (NULL, 0) == VEJGODAT_LAYOUT);
}

/* Each rank gets its messages in every order, with one repeated and one of another rank; then it has its new part. */
static void
areas (void)
{
  static const int64_t old_entries[4] = { 0, 1, 3, 3 };
  static const int64_t new_entries[4] = { 0, -1, 2, 3 };
  /* how many senders each rank has, and who they are */
  static const uint32_t due[3] = { 1, 2, 1 };
  static const uint32_t senders[3][2] = { {0, 9}, {0, 1}, {1, 9} };
  uint8_t             mesh[VEJGODAT_MESH_BYTES (3)];
  uint8_t             old_table[32], new_table[32], parts[2][256];
  uint8_t             messages[2][256], stray[256], part[256], joined[256];
  uint8_t             area[1024], before[1024];
  size_t              part_len[2], length[2], stray_len, area_len;
  vejgodat_length     answer;
  vejgodat_progress   progress;
  uint32_t            p, q, i, order, other;

  EXPECT (sizeof (vejgodat_progress) == 12);
  put_triangles (mesh);
  put_table (old_table, 3, old_entries);
  put_table (new_table, 3, new_entries);
  for (p = 0; p < 2; ++p) {
    answer = vejgodat_cut_part (mesh, sizeof mesh, old_table, 32, p, parts[p],
                                256);
    part_len[p] = (size_t) answer.length;
  }
  for (q = 0; q < 3; ++q) {
    for (i = 0; i < due[q]; ++i) {
      p = senders[q][i];
      answer = vejgodat_build_message (parts[p], part_len[p], old_table, 32,
                                       new_table, 32, p, q, 7, messages[i],
                                       256);
      EXPECT (answer.refusal == VEJGODAT_OK);
      length[i] = (size_t) answer.length;
    }
    other = q == 1 ? 2 : 1;
    answer = vejgodat_build_message (parts[1], part_len[1], old_table, 32,
                                     new_table, 32, 1, other, 7, stray, 256);
    EXPECT (answer.refusal == VEJGODAT_OK);
    stray_len = (size_t) answer.length;
    answer = vejgodat_area_length (old_table, 32, new_table, 32, q, 2);
    EXPECT (answer.refusal == VEJGODAT_OK);
    area_len = (size_t) answer.length;
    /* here each rank has as many trees as senders */
    EXPECT (area_len == VEJGODAT_AREA_BYTES (3, due[q], 4));
    EXPECT (VEJGODAT_AREA_BYTES (1024, 0, 4) == 16560);
    EXPECT (VEJGODAT_AREA_BYTES (1025, 0, 4) == 18496);
    EXPECT (VEJGODAT_AREA_BYTES (VEJGODAT_MAX_RANKS, 0, 6) == 264240);

    for (order = 0; order < due[q]; ++order) {
      memset (area, 0x5a, sizeof area);
      answer = vejgodat_open_area (old_table, 32, new_table, 32, q, 2, 7,
                                   area, area_len - 1);
      EXPECT (answer.refusal == VEJGODAT_BUFFER && area[0] == 0x5a);
      answer = vejgodat_open_area (old_table, 32, new_table, 32, q, 4, 7,
                                   area, sizeof area);
      EXPECT (answer.refusal == VEJGODAT_INDEX && area[0] == 0x5a);
      answer = vejgodat_open_area (old_table, 32, new_table, 32, q, 2, 7,
                                   area, sizeof area);
      EXPECT (answer.refusal == VEJGODAT_OK && answer.length == area_len);
      EXPECT (area[area_len] == 0x5a);
      for (i = 0; i < due[q]; ++i) {
        p = (order + i) % due[q];
        progress = vejgodat_progress_of (area, area_len);
        EXPECT (progress.refusal == VEJGODAT_OK);
        EXPECT (progress.heard == i && progress.due == due[q]);
        memcpy (before, area, sizeof area);
        EXPECT (vejgodat_deliver (area, area_len, stray, stray_len)
                == VEJGODAT_RECEIVER);
        EXPECT (vejgodat_deliver (area, area_len, stray, 31)
                == VEJGODAT_LAYOUT);
        EXPECT (vejgodat_deliver (area, 31, stray, 31) == VEJGODAT_AREA);
        answer = vejgodat_close_area (area, area_len, joined, 256);
        EXPECT (answer.refusal == VEJGODAT_MISSING && answer.length == 0);
        EXPECT (memcmp (area, before, sizeof area) == 0);
        EXPECT (vejgodat_deliver (area, area_len, messages[p], length[p])
                == VEJGODAT_OK);
        memcpy (before, area, sizeof area);
        EXPECT (vejgodat_deliver (area, area_len, messages[p], length[p])
                == VEJGODAT_HEARD);
        EXPECT (memcmp (area, before, sizeof area) == 0);
      }
      answer = vejgodat_cut_part (mesh, sizeof mesh, new_table, 32, q, part,
                                  256);
      EXPECT (answer.refusal == VEJGODAT_OK);
      memset (joined + answer.length, 0, 256 - (size_t) answer.length);
      memset (part + answer.length, 0, 256 - (size_t) answer.length);
      EXPECT (vejgodat_part_of_area_length (area, area_len).length
              == answer.length);
      EXPECT (vejgodat_close_area (area, area_len, joined,
                                   (size_t) answer.length - 1).refusal
              == VEJGODAT_BUFFER);
      EXPECT (vejgodat_close_area (area, area_len, joined, 256).length
              == answer.length);
      EXPECT (memcmp (joined, part, 256) == 0);
      EXPECT (memcmp (area, before, sizeof area) == 0);

      /* the first slot with an orientation at its boundary; then with a shape of the other dimension */
      area[VEJGODAT_AREA_BYTES (3, 0, 4) + 34] ^= 4;
      EXPECT (vejgodat_progress_of (area, area_len).refusal == VEJGODAT_AREA);
      area[VEJGODAT_AREA_BYTES (3, 0, 4) + 34] ^= 4;
      area[VEJGODAT_AREA_BYTES (3, 0, 4) + 4] = 2;
      EXPECT (vejgodat_progress_of (area, area_len).refusal == VEJGODAT_OK);
      EXPECT (vejgodat_close_area (area, area_len, joined, 256).refusal
              == VEJGODAT_JOIN);
    }
  }
}

/* All messages of a rank at once, and all messages of a run delivered at once. */
static void
many_messages (void)
{
  static const int64_t old_entries[4] = { 0, 1, 3, 3 };
  static const int64_t new_entries[4] = { 0, -1, 2, 3 };
  uint8_t             mesh[VEJGODAT_MESH_BYTES (3)];
  uint8_t             old_table[32], new_table[32], part[256], single[256];
  uint8_t             messages[1024], area[1024], before[1024], joined[256];
  uint32_t            answers[6], p, q, i;
  size_t              part_len, all = 0, at, area_len;
  vejgodat_length     answer;
  vejgodat_many       many;
  vejgodat_count      count;

  EXPECT (sizeof (vejgodat_many) == 16);
  put_triangles (mesh);
  put_table (old_table, 3, old_entries);
  put_table (new_table, 3, new_entries);
  for (p = 0; p < 3; ++p) {
    answer = vejgodat_cut_part (mesh, sizeof mesh, old_table, 32, p, part,
                                256);
    part_len = (size_t) answer.length;
    many = vejgodat_build_all_length (part, part_len, old_table, 32,
                                      new_table, 32, p);
    EXPECT (many.refusal == VEJGODAT_OK && many.count == (p < 2 ? 2 : 0));
    if (p < 2) {
      count.refusal = vejgodat_build_all (part, part_len, old_table, 32,
                                          new_table, 32, p, 7,
                                          messages + all,
                                          (size_t) many.length - 1).refusal;
      EXPECT (count.refusal == VEJGODAT_BUFFER);
    }
    EXPECT (vejgodat_build_all (part, part_len, old_table, 32, new_table, 32,
                                p, 7, messages + all, 1024 - all).length
            == many.length);
    /* the same as one by one */
    for (at = all, q = 0; q < 3; ++q) {
      answer = vejgodat_build_message (part, part_len, old_table, 32,
                                       new_table, 32, p, q, 7, single, 256);
      if (answer.refusal == VEJGODAT_OK) {
        EXPECT (memcmp (messages + at, single, (size_t) answer.length) == 0);
        at += (size_t) answer.length;
      }
    }
    all += (size_t) many.length;
    EXPECT (at == all);
  }
  EXPECT (vejgodat_build_all_length (part, part_len, old_table, 32, new_table,
                                     32, 3).refusal == VEJGODAT_INDEX);
  for (q = 0; q < 3; ++q) {
    memset (area, 0, sizeof area);
    answer = vejgodat_open_area (old_table, 32, new_table, 32, q, 2, 7, area,
                                 sizeof area);
    area_len = (size_t) answer.length;
    memcpy (before, area, sizeof area);
    for (i = 0; i < 6; ++i) {
      answers[i] = 99;
    }
    count = vejgodat_deliver_all (area, area_len, messages, all, answers, 3);
    EXPECT (count.refusal == VEJGODAT_BUFFER && count.count == 0);
    EXPECT (memcmp (area, before, sizeof area) == 0 && answers[0] == 99);
    /* and a rest that is no message */
    messages[all] = 1;
    count = vejgodat_deliver_all (area, area_len, messages, all + 1, answers,
                                  6);
    EXPECT (count.refusal == VEJGODAT_OK && count.count == 5);
    EXPECT (answers[0] == (q == 0 ? VEJGODAT_OK : VEJGODAT_RECEIVER));
    EXPECT (answers[3] == (q == 2 ? VEJGODAT_OK : VEJGODAT_RECEIVER));
    EXPECT (answers[4] == VEJGODAT_LAYOUT && answers[5] == 99);
    answer = vejgodat_cut_part (mesh, sizeof mesh, new_table, 32, q, part,
                                256);
    EXPECT (vejgodat_close_area (area, area_len, joined, 256).length
            == answer.length);
    EXPECT (memcmp (joined, part, (size_t) answer.length) == 0);
    count = vejgodat_deliver_all (area, 31, messages, all, answers, 6);
    EXPECT (count.refusal == VEJGODAT_AREA);
  }
}

/* A triangle's refinements, strings that aren't any, and a list of trees whose counts become a table. */
static void
refinements (void)
{
  static const uint8_t middle[9] = { 1, 0, 0, 1, 0, 0, 0, 0, 0 };
  static const uint8_t last[9] = { 1, 0, 0, 0, 1, 0, 0, 0, 0 };
  static const uint32_t shapes[3] = { 1, 0, 2 };
  static const uint32_t lengths[3] = { 9, 1, 9 };
  uint8_t             bits[19], deep[85], table[24];
  uint32_t            counts[4] = { 5, 5, 5, 5 };
  vejgodat_leaves     leaves;
  vejgodat_count      answer;

  EXPECT (sizeof (vejgodat_leaves) == 16);
  EXPECT (sizeof (vejgodat_count) == 8);
  leaves = vejgodat_count_leaves (1, middle, 9);
  EXPECT (leaves.refusal == VEJGODAT_OK && leaves.leaves == 7);
  EXPECT (leaves.upright == 4 && leaves.inverted == 3);
  leaves = vejgodat_count_leaves (1, last, 9);
  EXPECT (leaves.refusal == VEJGODAT_OK && leaves.leaves == 7);
  EXPECT (leaves.upright == 5 && leaves.inverted == 2);
  leaves = vejgodat_count_leaves (1, last, 8);
  EXPECT (leaves.refusal == VEJGODAT_STRING && leaves.leaves == 0);
  EXPECT (leaves.upright == 0 && leaves.inverted == 0);
  EXPECT (vejgodat_count_leaves (4, NULL, 0).refusal == VEJGODAT_SHAPE);
  /* refined elements inside one another */
  memset (deep, 0, sizeof deep);
  memset (deep, 1, VEJGODAT_MAX_DEPTH);
  EXPECT (vejgodat_count_leaves (0, deep, 81).leaves == 61);
  deep[VEJGODAT_MAX_DEPTH] = 1;
  EXPECT (vejgodat_count_leaves (0, deep, 85).refusal == VEJGODAT_STRING);

  memcpy (bits, middle, 9);
  memset (bits + 9, 0, 10);
  bits[10] = 1;
  answer = vejgodat_leaf_counts (shapes, 3, lengths, 3, bits, 19, counts, 2);
  EXPECT (answer.refusal == VEJGODAT_BUFFER && answer.count == 0);
  answer = vejgodat_leaf_counts (shapes, 3, lengths, 2, bits, 19, counts, 4);
  EXPECT (answer.refusal == VEJGODAT_PARTITION && answer.count == 0);
  EXPECT (counts[0] == 5 && counts[3] == 5);
  answer = vejgodat_leaf_counts (shapes, 3, lengths, 3, bits, 19, counts, 4);
  EXPECT (answer.refusal == VEJGODAT_OK && answer.count == 3);
  EXPECT (counts[0] == 7 && counts[1] == 1 && counts[2] == 8);
  EXPECT (counts[3] == 5);
  EXPECT (vejgodat_table_from_leaves (2, counts, 3, table, 24).length == 24);
}

/* An element file of two triangles that share an edge, and files that aren't any. */
static void
elements (void)
{
  static const char   good[] = "2  3  0\n   1       5     6     7\n"
    "   2       6     5     8\n# Generated by triangle -p two\n";
  static const char   twice[] = "1 3 0\n0 5 6 5\n";
  static const char   edge[] = "3 3 0\n0 5 6 7\n1 5 6 8\n2 6 5 9\n";
  uint8_t             mesh[VEJGODAT_MESH_BYTES (2) + 1];
  vejgodat_length     length;

#define TEXT(text) (const uint8_t *) (text), sizeof (text) - 1
  memset (mesh, 9, sizeof mesh);
  length = vejgodat_triangle_length (TEXT (good));
  EXPECT (length.refusal == VEJGODAT_OK);
  EXPECT (length.length == VEJGODAT_MESH_BYTES (2));
  length = vejgodat_import_triangle (TEXT (good), mesh, 135);
  EXPECT (length.refusal == VEJGODAT_BUFFER && length.length == 0);
  EXPECT (mesh[0] == 9 && mesh[136] == 9);
  length = vejgodat_import_triangle (TEXT (good), mesh, sizeof mesh);
  EXPECT (length.refusal == VEJGODAT_OK && length.length == 136);
  EXPECT (vejgodat_check_mesh (mesh, 136) == VEJGODAT_OK && mesh[136] == 9);
  /* face 2 of each meets the other's, its corners the other way round */
  EXPECT (mesh[8 + 16] == 1 && mesh[8 + 34] == 4 + 2);
  EXPECT (mesh[72 + 16] == 0 && mesh[72 + 34] == 4 + 2);
  EXPECT (vejgodat_triangle_length (TEXT ("1 3 0\n")).refusal
          == VEJGODAT_TEXT);
  EXPECT (vejgodat_triangle_length (TEXT (twice)).refusal
          == VEJGODAT_TWICE);
  EXPECT (vejgodat_triangle_length (TEXT (edge)).refusal == VEJGODAT_EDGE);
#undef TEXT
}

/* The three triangles: liner, none and drum. */
static void
regions (void)
{
  static const int64_t entries[4] = { 0, -1, 2, 3 };
  static uint32_t     counts[VEJGODAT_REGIONS + 1];
  uint8_t             mesh[VEJGODAT_MESH_BYTES (3)], table[32];
  uint8_t             part[32 + 2 * 64 + 40];
  uint32_t            b, sum = 0;

  put_triangles (mesh);
  put_table (table, 3, entries);
  mesh[8 + 38] = 7;
  mesh[8 + 2 * 64 + 38] = 0xff;
  mesh[8 + 2 * 64 + 39] = 0x0f;
  EXPECT (vejgodat_check_mesh (mesh, sizeof mesh) == VEJGODAT_OK);
  EXPECT (vejgodat_cut_part (mesh, sizeof mesh, table, 32, 1, part,
                             sizeof part).length == sizeof part);
  EXPECT (part[32 + 38] == 7 && part[32 + 64 + 38] == 0);
  EXPECT (part[32 + 2 * 64 + 38] == 0xff && part[32 + 2 * 64 + 39] == 0x0f);

  for (b = 0; b <= VEJGODAT_REGIONS; ++b) {
    counts[b] = 9;
  }
  EXPECT (vejgodat_region_counts (part, sizeof part, table, 32, 1, counts,
                                  VEJGODAT_REGIONS - 1) == VEJGODAT_BUFFER);
  EXPECT (counts[0] == 9 && counts[VEJGODAT_REGIONS - 2] == 9);
  EXPECT (vejgodat_region_counts (part, sizeof part, table, 32, 3, counts,
                                  VEJGODAT_REGIONS) == VEJGODAT_INDEX);
  EXPECT (vejgodat_region_counts (part, sizeof part, table, 32, 0, counts,
                                  0) == VEJGODAT_PART);
  EXPECT (vejgodat_region_counts (part, sizeof part, table, 32, 1, counts,
                                  VEJGODAT_REGIONS + 1) == VEJGODAT_OK);
  for (b = 0; b < VEJGODAT_REGIONS; ++b) {
    sum += counts[b];
  }
  EXPECT (counts[0] == 1 && counts[7] == 1 && counts[4095] == 0 && sum == 2);
  EXPECT (counts[VEJGODAT_REGIONS] == 9);

  part[32 + 2 * 64 + 38] = 0;
  part[32 + 2 * 64 + 39] = 0x10;
  EXPECT (vejgodat_check_part (part, sizeof part, table, 32, 1)
          == VEJGODAT_PART);
  mesh[8 + 39] = 0x10;
  EXPECT (vejgodat_check_mesh (mesh, sizeof mesh) == VEJGODAT_MESH);
}

/* The three triangles with boxes side by side on axis 0, from 0 to 1, 1 to 2 and 2 to 3. */
static void
probes (void)
{
  static const int64_t entries[4] = { 0, -1, 2, 3 };
  static const uint8_t corners[4][4] = {
    {0, 0, 0, 0}, {0, 0, 0x80, 0x3f}, {0, 0, 0, 0x40}, {0, 0, 0x40, 0x40}
  };
  uint8_t             mesh[VEJGODAT_MESH_BYTES (3)], table[32];
  uint8_t             part[32 + 2 * 64 + 40];
  uint32_t            out[3] = { 9, 9, 9 };
  vejgodat_count      answer;
  float               zero = 0, nan;
  int                 tree, at;

  put_triangles (mesh);
  put_table (table, 3, entries);
  for (tree = 0; tree < 3; ++tree) {
    for (at = 0; at < 6; ++at) {
      memcpy (mesh + 8 + 64 * tree + 40 + 4 * at,
              corners[at == 0 ? tree : at == 3 ? tree + 1 : at / 3], 4);
    }
  }
  EXPECT (vejgodat_cut_part (mesh, sizeof mesh, table, 32, 1, part,
                             sizeof part).length == sizeof part);

#define PART part, sizeof part, table, 32, 1
  answer = vejgodat_trees_at_point (PART, 1, 0.5, 1, out, 1);
  EXPECT (answer.refusal == VEJGODAT_BUFFER && answer.count == 0);
  answer = vejgodat_trees_at_point (PART, 1, 0.5, 1, out, 3);
  EXPECT (answer.refusal == VEJGODAT_OK && answer.count == 2);
  EXPECT (out[0] == 0 && out[1] == 1 && out[2] == 9);
  answer = vejgodat_trees_at_point (PART, 1, 0.5, 1.5, out, 0);
  EXPECT (answer.refusal == VEJGODAT_OK && answer.count == 0);
  answer = vejgodat_trees_below (PART, 0, -zero, out, 2);
  EXPECT (answer.refusal == VEJGODAT_OK && answer.count == 1);
  EXPECT (out[0] == 0 && out[1] == 1);
  answer = vejgodat_trees_below (PART, 3, 0, out, 2);
  EXPECT (answer.refusal == VEJGODAT_PROBE && answer.count == 0);
  answer = vejgodat_trees_between (PART, 0, 1.5, 9, out, 2);
  EXPECT (answer.refusal == VEJGODAT_OK && answer.count == 1);
  EXPECT (out[0] == 1);
  answer = vejgodat_trees_between (PART, 0, 9, 1.5, out, 2);
  EXPECT (answer.refusal == VEJGODAT_PROBE && answer.count == 0);

  /* a box that no probe meets must be sound, too */
  memset (part + 32 + 64 + 40, 0xff, 4);
  memcpy (&nan, part + 32 + 64 + 40, 4);
  answer = vejgodat_trees_below (PART, 0, 0.5, out, 2);
  EXPECT (answer.refusal == VEJGODAT_BOX && answer.count == 0);
  answer = vejgodat_trees_at_point (PART, 0, nan, 0, out, 2);
  EXPECT (answer.refusal == VEJGODAT_PROBE && answer.count == 0);
  EXPECT (out[0] == 1 && out[1] == 1 && out[2] == 9);
#undef PART
}

/* Where an object fails. Says it as the examples do. */
static void
fault_is (vejgodat_fault got, uint32_t fault, const char *place,
          const char *said)
{
  char                text[100];

  EXPECT (got.refusal == VEJGODAT_OK && got.fault == fault);
  if (vejgodat_fault_has_face (got.kind)) {
    snprintf (text, sizeof text, "%s %u, face %u: %s", place,
              (unsigned) got.at, (unsigned) got.face,
              vejgodat_fault_text (got.kind));
  }
  else {
    snprintf (text, sizeof text, "%s %u: %s", place, (unsigned) got.at,
              vejgodat_fault_text (got.kind));
  }
  if (strcmp (text, said)) {
    printf ("use.c: not so: %s, but %s\n", said, text);
    ++wrong;
  }
}

static void
faults (void)
{
  static const int64_t entries[4] = { 0, -1, 2, 3 };
  static const int64_t refused[5][4] =
    { {-1, 1}, {0, 0}, {0, 6, 3, 5}, {0, 4, 3, 5}, {0, -4, -3, 5} };
  static const int    refused_ranks[5] = { 1, 1, 3, 3, 3 };
  static const char  *said[5] = {
    "rank 0: first entry not 0", "rank 1: K outside its limits (1 to 1,048,576)",
    "rank 1: entry above K or below -K", "rank 1: negative count",
    "rank 1: empty rank with a negative entry"
  };
  uint8_t             mesh[VEJGODAT_MESH_BYTES (3)], table[32];
  uint8_t             part[32 + 2 * 64 + 40];
  vejgodat_fault      none;
  size_t              length;
  uint32_t            i, j;

  EXPECT (sizeof (vejgodat_fault) == 20);
  for (i = 0; i < 20; ++i) {
    EXPECT (strlen (vejgodat_fault_text (i)) > 7);
    for (j = 0; j < i && i <= 18; ++j) {
      EXPECT (strcmp (vejgodat_fault_text (i), vejgodat_fault_text (j)));
    }
  }
  for (i = 0; i < 5; ++i) {
    length = put_table (table, refused_ranks[i], refused[i]);
    fault_is (vejgodat_table_fault (table, length), VEJGODAT_TABLE, "rank",
              said[i]);
  }
  none = vejgodat_table_fault (table, 31);
  EXPECT (none.refusal == VEJGODAT_RANKS && none.fault == 0
          && none.kind == VEJGODAT_FAULT_NONE && none.at == 0);

  put_triangles (mesh);
  put_table (table, 3, entries);
  none = vejgodat_mesh_fault (mesh, sizeof mesh);
  EXPECT (none.refusal == VEJGODAT_OK && none.fault == 0 && none.kind == 0);
  fault_is (vejgodat_mesh_fault (mesh, 8), VEJGODAT_MESH, "tree",
            "tree 0: header or length");
  EXPECT (vejgodat_cut_part (mesh, sizeof mesh, table, 32, 1, part,
                             sizeof part).length == sizeof part);
  mesh[8 + 64 + 8] = 0;
  fault_is (vejgodat_mesh_fault (mesh, sizeof mesh), VEJGODAT_MESH, "tree",
            "tree 1, face 0: link not answered");
  mesh[8] = 1;
  fault_is (vejgodat_mesh_fault (mesh, sizeof mesh), VEJGODAT_MESH, "tree",
            "tree 0: number out of order");

  none = vejgodat_part_fault (part, sizeof part, table, 32, 1);
  EXPECT (none.refusal == VEJGODAT_OK && none.fault == 0 && none.kind == 0);
  none = vejgodat_part_fault (part, sizeof part, table, 32, 3);
  EXPECT (none.refusal == VEJGODAT_INDEX && none.fault == 0);
  fault_is (vejgodat_part_fault (part, sizeof part, table, 32, 0),
            VEJGODAT_PART, "record", "record 0: header or length");
  part[32 + 2 * 64] = 0;
  fault_is (vejgodat_part_fault (part, sizeof part, table, 32, 1),
            VEJGODAT_PART, "record", "record 2: number out of order");
}

/* What is wrong with a header. */
static void
field_is (vejgodat_wrong_field got, uint32_t field, uint64_t due,
          uint64_t found)
{
  if (got.refusal != VEJGODAT_OK || got.field != field || got.due != due
      || got.found != found) {
    printf ("use.c: not so: field %u, but %u (%s), due %lu, found %lu\n",
            (unsigned) field, (unsigned) got.field,
            vejgodat_header_text (got.field), (unsigned long) got.due,
            (unsigned long) got.found);
    ++wrong;
  }
}

static void
headers (void)
{
  static const int64_t entries[4] = { 0, -1, 2, 3 };
  static const int64_t old_entries[4] = { 0, 1, 3, 3 };
  static const int64_t more_entries[5] = { 0, -1, 2, 3, 3 };
  uint8_t             mesh[VEJGODAT_MESH_BYTES (3)];
  uint8_t             table[32], old_table[32], more[40];
  uint8_t             part[256];
  vejgodat_wrong_field none;
  const size_t        part_len = VEJGODAT_PART_BYTES (2, 1);
  uint32_t            i, j;

  EXPECT (sizeof (vejgodat_wrong_field) == 24);
  EXPECT (offsetof (vejgodat_wrong_field, due) == 8);
  for (i = 0; i < 12; ++i) {
    EXPECT (strlen (vejgodat_header_text (i)) > 7);
    for (j = 0; j < i && i <= 10; ++j) {
      EXPECT (strcmp (vejgodat_header_text (i), vejgodat_header_text (j)));
    }
  }
  put_triangles (mesh);
  put_table (table, 3, entries);
  put_table (old_table, 3, old_entries);
  put_table (more, 4, more_entries);
  memset (part, 0, sizeof part);
  EXPECT (vejgodat_cut_part (mesh, sizeof mesh, table, 32, 1, part,
                             sizeof part).length == part_len);

  field_is (vejgodat_mesh_header (mesh, sizeof mesh), VEJGODAT_HEADER_NONE, 0,
            0);
  field_is (vejgodat_mesh_header (mesh, 7), VEJGODAT_HEADER_SHORT, 8, 7);
  field_is (vejgodat_mesh_header (mesh, 8), VEJGODAT_HEADER_LENGTH, 200, 8);
  mesh[4] = 0;
  field_is (vejgodat_mesh_header (mesh, 8), VEJGODAT_HEADER_TREES, 0, 0);
  mesh[0] = 4;
  field_is (vejgodat_mesh_header (mesh, 8), VEJGODAT_HEADER_DIMENSION, 0, 4);

  field_is (vejgodat_part_header (part, part_len, table, 32, 1),
            VEJGODAT_HEADER_NONE, 0, 0);
  /* another rank, the old table, a table of more ranks, the buffer's length */
  field_is (vejgodat_part_header (part, part_len, table, 32, 2),
            VEJGODAT_HEADER_RANK, 2, 1);
  field_is (vejgodat_part_header (part, part_len, old_table, 32, 1),
            VEJGODAT_HEADER_FIRST, 1, 0);
  field_is (vejgodat_part_header (part, part_len, more, 40, 1),
            VEJGODAT_HEADER_RANKS, 4, 3);
  field_is (vejgodat_part_header (part, sizeof part, table, 32, 1),
            VEJGODAT_HEADER_LENGTH, 200, 256);
  field_is (vejgodat_part_header (part, 31, table, 32, 1),
            VEJGODAT_HEADER_SHORT, 32, 31);
  /* from the last number to the first, the ghost count apart */
  part[28] = 9;
  field_is (vejgodat_part_header (part, part_len, table, 32, 1),
            VEJGODAT_HEADER_ZERO, 0, 9);
  part[20] = 3;
  field_is (vejgodat_part_header (part, part_len, table, 32, 1),
            VEJGODAT_HEADER_COUNT, 2, 3);
  part[4] = 5;
  field_is (vejgodat_part_header (part, part_len, table, 32, 1),
            VEJGODAT_HEADER_TREES, 3, 5);
  part[0] = 0;
  field_is (vejgodat_part_header (part, part_len, table, 32, 1),
            VEJGODAT_HEADER_DIMENSION, 0, 0);
  none = vejgodat_part_header (part, part_len, table, 32, 3);
  EXPECT (none.refusal == VEJGODAT_INDEX && none.field == 0 && none.due == 0
          && none.found == 0);
  none = vejgodat_part_header (part, part_len, table, 31, 3);
  EXPECT (none.refusal == VEJGODAT_RANKS && none.field == 0);
}

/* Which number makes a delivery answer 12, with messages that have no records. */
static void
runs (void)
{
  static const int64_t entries[3] = { 0, 1, 3 };
  static const uint32_t same[4] = { 7, 2, 3, 2 }, other[4] = { 8, 3, 4, 1 };
  uint8_t             table[24], area[1024], message[32];
  size_t              area_len;
  uint32_t            i, j;

  for (i = 0; i < 7; ++i) {
    EXPECT (strlen (vejgodat_run_text (i)) > 7);
    for (j = 0; j < i && i <= 5; ++j) {
      EXPECT (strcmp (vejgodat_run_text (i), vejgodat_run_text (j)));
    }
  }
  put_table (table, 2, entries);
  area_len = (size_t) vejgodat_open_area (table, 24, table, 24, 1, 2, 7, area,
                                          sizeof area).length;
  memset (message, 0, sizeof message);
  message[16] = message[20] = 1;
  for (i = 0; i < 4; ++i) {
    put_number (message + 4 * i, same[i]);
  }
  EXPECT (vejgodat_run_field (area, message) == VEJGODAT_RUN_NONE);
  EXPECT (vejgodat_deliver (area, area_len, message, 32) == VEJGODAT_TREES);
  /* from P to the epoch: the first that differs is told */
  for (i = 4; i-- > 0;) {
    put_number (message + 4 * i, other[i]);
    EXPECT (vejgodat_deliver (area, area_len, message, 32) == VEJGODAT_RUN);
    EXPECT (vejgodat_run_field (area, message) == i + 1);
  }
  EXPECT (vejgodat_run_field (area, message) == VEJGODAT_RUN_EPOCH);
}

/* Leaves for ranks of unequal speed. */
static void
table_from_weights (void)
{
  static const int64_t entries[2][4] = { {0, 6, 6, 8}, {0, 3, 6, 8} };
  static const uint32_t weights[2][3] = { {3, 0, 1}, {7, 7, 7} };
  static const uint32_t bad[2][3] = { {0, 0, 0}, {1, 65536, 1} };
  static const uint32_t leaves[8] = { 1, 1, 1, 1, 1, 1, 1, 1 };
  uint8_t             table[32], out[32];
  vejgodat_length     answer;
  int                 i;

  for (i = 0; i < 2; ++i) {
    put_table (table, 3, entries[i]);
    answer = vejgodat_table_from_weights (weights[i], 3, leaves, 8,
                                          out, sizeof out);
    EXPECT (answer.refusal == VEJGODAT_OK && answer.length == 32);
    EXPECT (memcmp (out, table, 32) == 0);
  }
  for (i = 0; i < 2; ++i) {
    /* no tree at all: the weights decide */
    answer = vejgodat_table_from_weights (bad[i], 3, leaves, 0, out, 0);
    EXPECT (answer.refusal == VEJGODAT_WEIGHTS && answer.length == 0);
  }
  answer = vejgodat_table_from_weights (weights[0], 3, leaves, 0, out, 0);
  EXPECT (answer.refusal == VEJGODAT_PARTITION && answer.length == 0);
  answer = vejgodat_table_from_weights (weights[0], 0, leaves, 8, out, 32);
  EXPECT (answer.refusal == VEJGODAT_RANKS && answer.length == 0);
  answer = vejgodat_table_from_weights (weights[0], 3, leaves, 8, out, 31);
  EXPECT (answer.refusal == VEJGODAT_BUFFER && answer.length == 0);
  EXPECT (memcmp (out, table, 32) == 0);
}

/* Leaf counts with the sums of their blocks: 256 trees of 2 leaves, 2 of 4. */
static void
table_from_blocks (void)
{
  static const int64_t entries[4] = { 0, 87, -174, 258 };
  static uint32_t     leaves[258];
  uint64_t            sums[3] = { 512, 8, 0 };
  uint8_t             table[32], out[32];
  vejgodat_length     answer;
  int                 i;

  for (i = 0; i < 258; ++i) {
    leaves[i] = i < VEJGODAT_BLOCK_TREES ? 2 : 4;
  }
  put_table (table, 3, entries);
  answer = vejgodat_table_from_blocks (3, leaves, 258, sums, 2,
                                       out, sizeof out);
  EXPECT (answer.refusal == VEJGODAT_OK && answer.length == 32);
  EXPECT (memcmp (out, table, 32) == 0);
  answer = vejgodat_table_from_blocks (3, leaves, 258, sums, 3, out, 32);
  EXPECT (answer.refusal == VEJGODAT_PARTITION && answer.length == 0);
  answer = vejgodat_table_from_blocks (3, leaves, 258, sums, 1, out, 32);
  EXPECT (answer.refusal == VEJGODAT_PARTITION && answer.length == 0);
  ++sums[0];
  --sums[1];
  answer = vejgodat_table_from_blocks (3, leaves, 258, sums, 2, out, 32);
  EXPECT (answer.refusal == VEJGODAT_PARTITION && answer.length == 0);
  EXPECT (memcmp (out, table, 32) == 0);
}

/* a part by columns, and back */
static void
columns (void)
{
  static const int64_t entries[4] = { 0, -1, 2, 3 };
  uint8_t             mesh[VEJGODAT_MESH_BYTES (3)], table[32];
  uint8_t             part[32 + 2 * 64 + 40], file[sizeof part + 1];
  uint8_t             again[sizeof part];
  vejgodat_length     answer;
  size_t              i, j;

  put_triangles (mesh);
  put_table (table, 3, entries);
  for (j = 40; j < 64; ++j) {
    mesh[8 + j] = (uint8_t) j;
  }
  EXPECT (vejgodat_cut_part (mesh, sizeof mesh, table, 32, 1, part,
                             sizeof part).length == sizeof part);
  file[sizeof part] = 9;
  EXPECT (vejgodat_part_to_columns (part, sizeof part, table, 32, 1, file,
                                    sizeof part - 1).refusal
          == VEJGODAT_BUFFER);
  answer = vejgodat_part_to_columns (part, sizeof part, table, 32, 1, file,
                                     sizeof file);
  EXPECT (answer.refusal == VEJGODAT_OK && answer.length == sizeof part);
  EXPECT (file[sizeof part] == 9);
  for (i = 0; i < 2; ++i) {
    for (j = 0; j < 64; ++j) {
      EXPECT (file[32 + 2 * j + i] == part[32 + 64 * i + j]);
    }
  }
  EXPECT (memcmp (file + 32 + 2 * 64, part + 32 + 2 * 64, 40) == 0);
  answer = vejgodat_columns_to_part (file, sizeof part, table, 32, 1, again,
                                     sizeof again);
  EXPECT (answer.refusal == VEJGODAT_OK && answer.length == sizeof part);
  EXPECT (memcmp (again, part, sizeof part) == 0);

  EXPECT (vejgodat_columns_to_part (file, sizeof file, table, 32, 1, again,
                                    0).refusal == VEJGODAT_COLUMNS);
  EXPECT (vejgodat_columns_to_part (part, sizeof part, table, 32, 1, again,
                                    sizeof again).refusal
          == VEJGODAT_COLUMNS);
  EXPECT (vejgodat_part_to_columns (file, sizeof part, table, 32, 1, again,
                                    sizeof again).refusal == VEJGODAT_PART);
  EXPECT (memcmp (again, part, sizeof part) == 0);
  EXPECT (strcmp (vejgodat_refusal_text (VEJGODAT_COLUMNS),
                  "the column file isn't that of a sound part") == 0);
}

/* Parts of three ranks, the last without trees, for four ranks and back. */
static void
restart (void)
{
  static const int64_t entries[] = { 0, 1, 3, 3 };
  uint8_t             mesh[VEJGODAT_MESH_BYTES (3)], table[32], more[40];
  uint8_t             back[32], part[32 + 2 * 64 + 40];
  uint8_t             moved[sizeof part + 1], again[sizeof part], none[33];
  vejgodat_length     answer;

  put_triangles (mesh);
  put_table (table, 3, entries);
  EXPECT (vejgodat_pad_table (table, 32, 4, more, 39).refusal
          == VEJGODAT_BUFFER);
  answer = vejgodat_pad_table (table, 32, 4, more, 40);
  EXPECT (answer.refusal == VEJGODAT_OK && answer.length == 40);
  EXPECT (memcmp (more, table, 32) == 0 && memcmp (more + 32, table + 24, 8)
          == 0);
  EXPECT (vejgodat_pad_table (more, 40, 3, back, 32).refusal == VEJGODAT_OK);
  EXPECT (memcmp (back, table, 32) == 0);
  EXPECT (vejgodat_pad_table (table, 32, 1, back, 32).refusal
          == VEJGODAT_OCCUPIED);
  EXPECT (vejgodat_pad_table (table, 32, 0, back, 32).refusal
          == VEJGODAT_RANKS);
  EXPECT (memcmp (back, table, 32) == 0);

  none[32] = 9;
  answer = vejgodat_empty_part (more, 40, 3, 2, none, sizeof none);
  EXPECT (answer.refusal == VEJGODAT_OK && answer.length == 32);
  EXPECT (none[32] == 9 && vejgodat_check_part (none, 32, more, 40, 3) == 0);
  EXPECT (vejgodat_empty_part (more, 40, 3, 4, none, sizeof none).refusal
          == VEJGODAT_INDEX);
  EXPECT (vejgodat_empty_part (more, 40, 1, 2, none, sizeof none).refusal
          == VEJGODAT_OCCUPIED);

  EXPECT (vejgodat_cut_part (mesh, sizeof mesh, table, 32, 1, part,
                             sizeof part).length == sizeof part);
  moved[sizeof part] = 9;
  answer = vejgodat_relabel_part (part, sizeof part, table, 32, 1, more, 40,
                                  1, moved, sizeof moved);
  EXPECT (answer.refusal == VEJGODAT_OK && answer.length == sizeof part);
  EXPECT (moved[8] == 4 && moved[12] == 1 && moved[sizeof part] == 9);
  EXPECT (vejgodat_check_part (moved, sizeof part, more, 40, 1) == 0);
  EXPECT (vejgodat_relabel_part (moved, sizeof part, more, 40, 1, table, 32,
                                 1, again, sizeof again).refusal
          == VEJGODAT_OK);
  EXPECT (memcmp (again, part, sizeof part) == 0);
  EXPECT (vejgodat_relabel_part (part, sizeof part, table, 32, 1, more, 40,
                                 0, moved, sizeof moved).refusal
          == VEJGODAT_RANGE);
  EXPECT (vejgodat_relabel_part (moved, sizeof part, table, 32, 1, more, 40,
                                 0, again, sizeof again).refusal
          == VEJGODAT_PART);
  EXPECT (memcmp (again, part, sizeof part) == 0);
  EXPECT (strcmp (vejgodat_refusal_text (VEJGODAT_OCCUPIED),
                  vejgodat_refusal_text (VEJGODAT_RANGE)) != 0);
}

int
main (void)
{
  layout ();
  version ();
  texts ();
  check_table ();
  table_length ();
  table_range ();
  write_table ();
  table_from_leaves ();
  plan ();
  empty_set ();
  corners ();
  check_mesh ();
  bricks ();
  kinds ();
  parts ();
  messages ();
  areas ();
  many_messages ();
  refinements ();
  regions ();
  probes ();
  faults ();
  headers ();
  runs ();
  elements ();
  columns ();
  restart ();
  table_from_weights ();
  table_from_blocks ();
  return wrong == 0 ? 0 : 1;
}
