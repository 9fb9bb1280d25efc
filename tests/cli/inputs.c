/* Writes the files that the tests of the program `vejgodat` read and that it can't make itself into the current
 * folder: boxes.mesh, a brick of 3 by 2 by 2 trees whose data are their boxes and whose region is their place on
 * the third axis; 1-0.message and 1-2.message, what rank 1 sends when the table 0,4,-8,12 becomes 0,6,6,12; and
 * 0.area, the area of rank 0 that has its own message but not yet that of rank 1. */
#include <vejgodat.h>

#include <stdio.h>
#include <stdlib.h>
#include <string.h>

#define TREES 12
#define RANKS 3

static void
must (int done, const char *what)
{
  if (!done) {
    fprintf (stderr, "inputs: %s\n", what);
    exit (1);
  }
}

static void
save (const char *name, const uint8_t * bytes, size_t length)
{
  FILE               *out = fopen (name, "wb");

  must (out != NULL && fwrite (bytes, 1, length, out) == length
        && fclose (out) == 0, name);
}

static void
put_float (uint8_t * at, float value)
{
  uint32_t            bits;

  memcpy (&bits, &value, sizeof bits);
  vejgodat_put_number (at, bits);
}

static void
put_table (uint8_t * table, const int64_t * entries)
{
  int                 i;

  for (i = 0; i <= RANKS; ++i) {
    vejgodat_put_number (table + 8 * i,
                         (uint32_t) ((uint64_t) entries[i] & UINT32_MAX));
    vejgodat_put_number (table + 8 * i + 4,
                         (uint32_t) ((uint64_t) entries[i] >> 32));
  }
}

static void
make_mesh (uint8_t * mesh, size_t length)
{
  uint32_t            tree, axis, place[3];
  uint8_t            *data;

  must (vejgodat_write_brick (3, 2, 2, 0, 0, 0, mesh, length).refusal == 0,
        "brick");
  for (tree = 0; tree < TREES; ++tree) {
    place[0] = tree % 3;
    place[1] = tree / 3 % 2;
    place[2] = tree / 6;
    data = vejgodat_mesh_writable_data (mesh, tree);
    for (axis = 0; axis < 3; ++axis) {
      put_float (data + 4 * axis, (float) place[axis]);
      put_float (data + 12 + 4 * axis, (float) place[axis] + 1);
    }
    vejgodat_mesh_set_region (mesh, tree, place[2]);
  }
}

/* All messages of a rank, end to end; their length. */
static size_t
build (const uint8_t * mesh, size_t mesh_len, const uint8_t * old_table,
       const uint8_t * new_table, uint32_t rank, uint8_t * out,
       size_t out_len)
{
  uint8_t             part[VEJGODAT_PART_BYTES (TREES, 0)];
  const vejgodat_length cut =
    vejgodat_cut_part (mesh, mesh_len, old_table,
                       VEJGODAT_TABLE_BYTES (RANKS), rank, part, sizeof part);
  const vejgodat_many many =
    vejgodat_build_all (part, (size_t) cut.length, old_table,
                        VEJGODAT_TABLE_BYTES (RANKS), new_table,
                        VEJGODAT_TABLE_BYTES (RANKS), rank, 7, out, out_len);

  must (cut.refusal == 0 && many.refusal == 0, "messages");
  return (size_t) many.length;
}

int
main (void)
{
  static const int64_t olds[RANKS + 1] = { 0, 4, -8, 12 };
  static const int64_t news[RANKS + 1] = { 0, 6, 6, 12 };
  uint8_t             mesh[VEJGODAT_MESH_BYTES (TREES)];
  uint8_t             old_table[VEJGODAT_TABLE_BYTES (RANKS)];
  uint8_t             new_table[VEJGODAT_TABLE_BYTES (RANKS)];
  uint8_t             all[4096], area[VEJGODAT_AREA_BYTES (RANKS, 6, 6)];
  const uint8_t      *message;
  char                name[32];
  size_t              length, at = 0;

  make_mesh (mesh, sizeof mesh);
  put_table (old_table, olds);
  put_table (new_table, news);
  save ("boxes.mesh", mesh, sizeof mesh);
  length = build (mesh, sizeof mesh, old_table, new_table, 1, all,
                  sizeof all);
  while ((message = vejgodat_next_message (all, length, &at)) != NULL) {
    sprintf (name, "1-%u.message",
             (unsigned) vejgodat_message_receiver (message));
    save (name, message, (size_t) vejgodat_message_bytes (message));
  }
  length = build (mesh, sizeof mesh, old_table, new_table, 0, all,
                  sizeof all);
  must (vejgodat_open_area (old_table, sizeof old_table, new_table,
                            sizeof new_table, 0, 3, 7, area,
                            sizeof area).refusal == 0
        && vejgodat_deliver (area, sizeof area, all, length) == 0, "area");
  save ("0.area", area, sizeof area);
  return 0;
}
