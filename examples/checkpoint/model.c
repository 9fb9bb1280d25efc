#include "model.h"
#include "../mpi/exchange.h"

void
make_box (uint8_t * mesh)
{
  uint32_t            k;

  must (vejgodat_write_brick (SIDE, SIDE, SIDE, 0, 1, 0, mesh,
                              VEJGODAT_MESH_BYTES (TREES)).refusal,
        "vejgodat_write_brick");
  for (k = 0; k < TREES; ++k) {
    vejgodat_put_number (vejgodat_mesh_writable_data (mesh, k), 7 * k);
  }
}

void
make_table (uint32_t step, uint32_t ranks, int64_t * table)
{
  static uint32_t     leaves[TREES];
  uint32_t            k;

  for (k = 0; k < TREES; ++k) {
    leaves[k] = k / (SIDE * SIDE) == 2 * (step % 4) ? 64 : 1;
  }
  must (vejgodat_table_from_leaves (ranks, leaves, TREES, (uint8_t *) table,
                                    VEJGODAT_TABLE_BYTES (ranks)).refusal,
        "vejgodat_table_from_leaves");
}
