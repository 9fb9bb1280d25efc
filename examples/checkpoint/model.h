/* What the example computes on: a box of hexahedra with tree data, and a table for each step. */
#ifndef MODEL_H
#define MODEL_H

#include <vejgodat.h>

#define SIDE 8
#define TREES (SIDE * SIDE * SIDE)

/* The whole mesh, VEJGODAT_MESH_BYTES (TREES) bytes. */
void                make_box (uint8_t * mesh);

/* The table of a step, ranks + 1 entries: one layer of trees is refined, and comes back to where it was after four steps. */
void                make_table (uint32_t step, uint32_t ranks,
                                int64_t * table);

#endif
