/* A brick of trees on three ranks moves from one table to another: what README.md does with MPI, here in one process,
 * each rank in turn. Every part that comes out is the one that the new table cuts from the whole mesh. The same in
 * C++ (flow.cc), Fortran (flow.f90) and Python (flow.py).
 *
 *     cc -std=c99 flow.c $(pkg-config --cflags --libs vejgodat) */
#include <stdio.h>
#include <stdlib.h>
#include <string.h>
#include <vejgodat.h>

#define P 3
#define K 24
#define TABLES (const uint8_t *) old_table, sizeof old_table, (const uint8_t *) new_table, sizeof new_table

typedef struct { uint8_t *bytes; size_t length; } buffer;
#define ALL(b) (b).bytes, (b).length

static void must (uint32_t refusal)
{
  if (refusal != VEJGODAT_OK) {
    printf ("refusal %u, %s\n", (unsigned) refusal, vejgodat_refusal_text (refusal));
    exit (1);
  }
}

static buffer room (uint32_t refusal, uint64_t length)
{
  buffer made = { malloc (length > 0 ? (size_t) length : 1), (size_t) length };
  must (refusal);
  if (made.bytes == NULL) exit (1);
  return made;
}

static buffer cut (buffer mesh, const int64_t * table, uint32_t rank)
{
  const uint8_t *bytes = (const uint8_t *) table;
  vejgodat_length need = vejgodat_part_length (ALL (mesh), bytes, VEJGODAT_TABLE_BYTES (P), rank);
  buffer part = room (need.refusal, need.length);
  must (vejgodat_cut_part (ALL (mesh), bytes, VEJGODAT_TABLE_BYTES (P), rank, ALL (part)).refusal);
  return part;
}

int main (void)
{
  const uint32_t epoch = 7;
  int64_t old_table[P + 1], new_table[P + 1];
  uint32_t leaves[K], p, q, messages = 0;
  buffer area[P];

  /* the mesh, and the tables of two sets of leaf counts */
  vejgodat_length need = vejgodat_brick_length (4, 3, 2);
  buffer mesh = room (need.refusal, need.length);
  must (vejgodat_write_brick (4, 3, 2, 1, 0, 0, ALL (mesh)).refusal);
  for (p = 0; p < K; ++p) leaves[p] = 1;
  must (vejgodat_table_from_leaves (P, leaves, K, (uint8_t *) old_table, sizeof old_table).refusal);
  for (p = 0; p < K; ++p) leaves[p] = p < 5 ? 8 : 1;
  must (vejgodat_table_from_leaves (P, leaves, K, (uint8_t *) new_table, sizeof new_table).refusal);

  /* each rank opens its area */
  for (q = 0; q < P; ++q) {
    need = vejgodat_area_length (TABLES, q, 3);
    area[q] = room (need.refusal, need.length);
    must (vejgodat_open_area (TABLES, q, 3, epoch, ALL (area[q])).refusal);
  }
  /* each rank has its part, and sends a message to every rank that gets trees of it */
  for (p = 0; p < P; ++p) {
    buffer part = cut (mesh, old_table, p);
    vejgodat_many many = vejgodat_build_all_length (ALL (part), TABLES, p);
    buffer out = room (many.refusal, many.length);
    const uint8_t *message;
    size_t at = 0;
    must (vejgodat_build_all (ALL (part), TABLES, p, epoch, ALL (out)).refusal);
    while ((message = vejgodat_next_message (ALL (out), &at)) != NULL) {
      must (vejgodat_deliver (ALL (area[vejgodat_message_receiver (message)]), message,
                              (size_t) vejgodat_message_bytes (message)));
      ++messages;
    }
    free (part.bytes), free (out.bytes);
  }
  /* each rank closes its area: its part under the new table */
  for (q = 0; q < P; ++q) {
    buffer part = room (VEJGODAT_OK, vejgodat_area_part_bytes (area[q].bytes));
    buffer expected = cut (mesh, new_table, q);
    must (vejgodat_close_area (ALL (area[q]), ALL (part)).refusal);
    if (part.length != expected.length || memcmp (part.bytes, expected.bytes, part.length) != 0) {
      printf ("the part of rank %u is another\n", (unsigned) q);
      return 1;
    }
    free (part.bytes), free (expected.bytes), free (area[q].bytes);
  }
  free (mesh.bytes);
  printf ("%u ranks, %u messages, each part as cut\n", (unsigned) P, (unsigned) messages);
  return 0;
}
