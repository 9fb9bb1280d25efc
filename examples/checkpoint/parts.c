#include "store.h"

#include <errno.h>
#include <inttypes.h>
#include <stdlib.h>
#include <string.h>

/* Whether the folder has the file of this name, undamaged. */
static int
is_there (const char *folder, const char *name)
{
  char               *path = path_of (folder, name, "");
  size_t              length;
  uint8_t            *bytes = read_file (path, &length);
  print               found = "";

  if (bytes != NULL) {
    fingerprint (bytes, length, found);
  }
  free (bytes);
  free (path);
  return strcmp (found, name) == 0;
}

int
store_part (const char *folder, int columns, const mesh_part * part,
            const uint8_t * table, size_t table_len, uint32_t rank,
            print name)
{
  uint8_t            *turned = NULL;
  const uint8_t      *bytes = part->bytes;
  int                 well;

  if (columns) {
    bytes = turned = room (part->length);
    must (vejgodat_part_to_columns (part->bytes, part->length, table,
                                    table_len, rank, turned,
                                    part->length).refusal,
          "vejgodat_part_to_columns");
  }
  fingerprint (bytes, part->length, name);
  /* P and the rank are in the part, so no two processes write the same file */
  well = is_there (folder, name) ? sync_folder (folder)
    : write_file (folder, name, bytes, part->length);
  free (turned);
  return well;
}

/* Say what is wrong with a part that isn't sound, and where. */
static int
check_part (const char *path, const manifest * it, uint32_t rank,
            const mesh_part * part)
{
  const uint8_t      *table = (const uint8_t *) it->table;
  const size_t        table_len = VEJGODAT_TABLE_BYTES (it->ranks);
  vejgodat_wrong_field header;
  vejgodat_fault      fault;
  char                text[200];

  header = vejgodat_part_header (part->bytes, part->length, table, table_len,
                                 rank);
  if (header.refusal == VEJGODAT_OK && header.field != VEJGODAT_HEADER_NONE) {
    return complain (path, "part of rank %u: %s: %" PRIu64 ", due %" PRIu64,
                     (unsigned) rank, vejgodat_header_text (header.field),
                     header.found, header.due);
  }
  fault = vejgodat_part_fault (part->bytes, part->length, table, table_len,
                               rank);
  if (fault.refusal != VEJGODAT_OK || fault.fault != VEJGODAT_OK) {
    vejgodat_write_fault (fault, text, sizeof text);
    return complain (path, "part of rank %u: %s", (unsigned) rank, text);
  }
  if (vejgodat_part_dimension (part->bytes) != it->dimension) {
    return complain (path, "part of rank %u: dimension not the manifest's",
                     (unsigned) rank);
  }
  return 1;
}

/* The part of a column file in its place. */
static int
turn_back (const char *path, const manifest * it, uint32_t rank,
           mesh_part * part)
{
  uint8_t            *bytes = room (part->length);
  const uint32_t      refusal =
    vejgodat_columns_to_part (part->bytes, part->length,
                              (const uint8_t *) it->table,
                              VEJGODAT_TABLE_BYTES (it->ranks), rank, bytes,
                              part->length).refusal;

  free (part->bytes);
  part->bytes = bytes;
  return refusal == VEJGODAT_OK ? 1
    : complain (path, "part of rank %u: %s", (unsigned) rank,
                vejgodat_refusal_text (refusal));
}

int
load_part (const char *folder, const manifest * it, uint32_t rank,
           mesh_part * part)
{
  char               *path = path_of (folder, it->prints[rank], "");
  print               found;
  int                 well = 1;

  part->bytes = read_file (path, &part->length);
  if (part->bytes == NULL) {
    well = complain (path, "part of rank %u: %s", (unsigned) rank,
                     strerror (errno));
  }
  if (well) {
    fingerprint (part->bytes, part->length, found);
    if (strcmp (found, it->prints[rank]) != 0) {
      well = complain (path, "part of rank %u: damaged, its fingerprint is"
                       " %s", (unsigned) rank, found);
    }
  }
  well = well && (!it->columns || turn_back (path, it, rank, part))
    && check_part (path, it, rank, part);
  free (path);
  return well;
}
