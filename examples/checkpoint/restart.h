/* Loading a step that any number of ranks stored, and moving its parts to as many ranks as there are now. */
#ifndef RESTART_H
#define RESTART_H

#include "store.h"

/* Collective over all processes, each with the same manifest and the same new table, of as many ranks as there are
 * processes. Then each has its part under the new table. */
int                 restart (const char *folder, const manifest * old,
                             const int64_t * new_table, uint32_t epoch,
                             mesh_part * part);

#endif
