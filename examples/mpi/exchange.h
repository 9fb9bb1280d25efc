/* Moving a rank's part of a coarse mesh from an old table to a new one, over MPI. */
#ifndef EXCHANGE_H
#define EXCHANGE_H

#include <mpi.h>
#include <vejgodat.h>

/* What a rank has of the mesh: the bytes of its part, from malloc. */
typedef struct
{
  uint8_t            *bytes;
  size_t              length;
}
mesh_part;

/* End the run if a call refused, and say why. */
void                must (uint32_t refusal, const char *call);

/* End the run if an object isn't sound, and say where. */
void                must_be_sound (vejgodat_fault fault, const char *name);

/* malloc that ends the run instead of failing */
void               *room (size_t bytes);

/* Whether two buffers have no byte in common. No call can see that what it writes overlaps what it reads. */
int                 apart (const void *a, size_t a_len, const void *b,
                           size_t b_len);

/* Collective over comm, which has as many ranks as the tables. Each rank gives its part under the old table, and then
 * has that under the new one. All ranks give the same tables of table_len bytes, made on one rank and broadcast, and the
 * same epoch, one higher in each call; where they differ the run ends, and says so. All messages of a rank are built, and
 * all that it gets delivered, under one check. */
void                exchange (MPI_Comm comm, uint32_t epoch,
                              const uint8_t * old_table,
                              const uint8_t * new_table, size_t table_len,
                              mesh_part * part);

/* The same, each message delivered as it comes: better where a rank has few partners and the messages come far apart. */
void                exchange_as_they_come (MPI_Comm comm, uint32_t epoch,
                                           const uint8_t * old_table,
                                           const uint8_t * new_table,
                                           size_t table_len,
                                           mesh_part * part);

#endif
