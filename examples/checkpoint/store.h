/* A folder of checkpoints. Each different part is one file, named by the fingerprint of its bytes; each step has a
 * manifest, a short text that says of which parts it is made. Equal states have equal files. As in files.h, an int is 1 if
 * all went well, and 0 if something was said. */
#ifndef STORE_H
#define STORE_H

#include "files.h"

/* What a manifest says. */
typedef struct
{
  uint32_t            release;  /* of the library that wrote it */
  int                 columns;  /* whether parts are stored by columns */
  uint32_t            dimension, ranks, epoch;
  int64_t            *table;    /* ranks + 1 entries, the last one K */
  print              *prints;   /* the fingerprint of each rank's part */
}
manifest;

/* Store a part, which is sound for the table and the rank, and give the fingerprint of its file. A file that is there
 * already is left alone, unless it is damaged. */
int                 store_part (const char *folder, int columns,
                                const mesh_part * part,
                                const uint8_t * table, size_t table_len,
                                uint32_t rank, print name);

/* Load a rank's part: its fingerprint is that of the manifest, and it is sound for the manifest's table. */
int                 load_part (const char *folder, const manifest * it,
                               uint32_t rank, mesh_part * part);

/* Store the manifest of a step, after all its parts. */
int                 store_manifest (const char *folder, const manifest * it);

/* The bytes of a step's manifest, and what they say. */
int                 load_manifest (const char *folder, uint32_t step,
                                   uint8_t ** text, size_t *length);
int                 read_manifest (const char *folder, uint32_t step,
                                   const uint8_t * text, size_t length,
                                   manifest * it);

/* The last step that the folder has a manifest of, or -1. */
int                 last_step (const char *folder, int64_t * step);

manifest            new_manifest (uint32_t ranks);
void                free_manifest (manifest * it);

#endif
