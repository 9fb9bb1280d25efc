/* Cuts the mesh of examples/checkpoint by the table of a step, and writes each part, by rows or by columns, to a file named
 * by its rank: cuts RANKS STEP DIR rows|columns
 *
 * It needs no MPI, but for the words of a refusal. */
#include "../../examples/checkpoint/model.h"
#include "../../examples/mpi/exchange.h"

#include <stdio.h>
#include <stdlib.h>
#include <string.h>

static uint8_t      mesh[VEJGODAT_MESH_BYTES (TREES)];
static uint8_t      part[VEJGODAT_PART_BYTES (TREES, 0)];
static uint8_t      columns[VEJGODAT_PART_BYTES (TREES, 0)];

int
main (int argc, char **argv)
{
  char                path[500];
  const uint8_t      *bytes;
  int64_t            *table;
  uint32_t            ranks, p;
  size_t              table_len;
  vejgodat_length     length;
  FILE               *file;

  if (argc != 5) {
    return 2;
  }
  ranks = (uint32_t) strtoul (argv[1], NULL, 10);
  table_len = VEJGODAT_TABLE_BYTES (ranks);
  table = room (table_len);
  make_box (mesh);
  make_table ((uint32_t) strtoul (argv[2], NULL, 10), ranks, table);
  for (p = 0; p < ranks; ++p) {
    bytes = part;
    length = vejgodat_cut_part (mesh, sizeof mesh, (const uint8_t *) table,
                                table_len, p, part, sizeof part);
    must (length.refusal, "vejgodat_cut_part");
    if (strcmp (argv[4], "columns") == 0) {
      bytes = columns;
      must (vejgodat_part_to_columns (part, (size_t) length.length,
                                      (const uint8_t *) table, table_len, p,
                                      columns, sizeof columns).refusal,
            "vejgodat_part_to_columns");
    }
    snprintf (path, sizeof path, "%s/%u", argv[3], (unsigned) p);
    file = fopen (path, "wb");
    if (file == NULL
        || fwrite (bytes, 1, (size_t) length.length, file) != length.length
        || fclose (file) != 0) {
      perror (path);
      return 1;
    }
  }
  free (table);
  return 0;
}
