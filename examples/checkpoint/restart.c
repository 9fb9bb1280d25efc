#include "restart.h"

#include <stdlib.h>

/* A move between the two tables, both padded with empty ranks to as many as the larger one has. A process has the parts of
 * the old ranks me, me + processes and so on below that number; its own new rank is me. */
typedef struct
{
  uint32_t            me, processes, ranks, held, sends, epoch, dimension;
  uint8_t            *old_table, *new_table, *out;
  size_t              table_len;
  mesh_part          *parts;
  MPI_Request        *requests;
}
padded;

static uint8_t     *
pad (const int64_t * table, uint32_t ranks, uint32_t padded_ranks)
{
  const size_t        length = VEJGODAT_TABLE_BYTES (padded_ranks);
  uint8_t            *out = room (length);

  must (vejgodat_pad_table ((const uint8_t *) table,
                            VEJGODAT_TABLE_BYTES (ranks), padded_ranks, out,
                            length).refusal, "vejgodat_pad_table");
  return out;
}

/* The part in its place under another table, in which the rank has the same number and trees. */
static void
relabel (mesh_part * part, uint32_t rank, const uint8_t * from,
         size_t from_len, const uint8_t * to, size_t to_len)
{
  uint8_t            *bytes = room (part->length);

  must (vejgodat_relabel_part (part->bytes, part->length, from, from_len,
                               rank, to, to_len, rank, bytes,
                               part->length).refusal,
        "vejgodat_relabel_part");
  free (part->bytes);
  part->bytes = bytes;
}

/* The part of a rank that only the padded table has. */
static void
make_empty (const padded * it, uint32_t rank, mesh_part * part)
{
  part->length = VEJGODAT_PART_BYTES (0, 0);
  part->bytes = room (part->length);
  must (vejgodat_empty_part (it->old_table, it->table_len, rank,
                             it->dimension, part->bytes,
                             part->length).refusal, "vejgodat_empty_part");
}

/* Load the parts that this process has to send. */
static int
load_parts (const char *folder, const manifest * old, padded * it)
{
  uint32_t            i, rank;
  int                 well = 1;

  for (i = 0; i < it->held && well; ++i) {
    rank = it->me + i * it->processes;
    if (rank >= old->ranks) {
      make_empty (it, rank, &it->parts[i]);
    }
    else if ((well = load_part (folder, old, rank, &it->parts[i]))) {
      relabel (&it->parts[i], rank, (const uint8_t *) old->table,
               VEJGODAT_TABLE_BYTES (old->ranks), it->old_table,
               it->table_len);
    }
  }
  return well;
}

/* Build the messages of all parts end to end in one buffer, and send each to the process of its receiver. The ranks that
 * the new table has only by padding have no trees, so no message is for them. */
static void
send_all (padded * it)
{
  vejgodat_many       many;
  const uint8_t      *message;
  size_t              length = 0, count = 0, at = 0;
  uint32_t            i;

  for (i = 0; i < it->held; ++i) {
    many = vejgodat_build_all_length (it->parts[i].bytes,
                                      it->parts[i].length, it->old_table,
                                      it->table_len, it->new_table,
                                      it->table_len,
                                      it->me + i * it->processes);
    must (many.refusal, "vejgodat_build_all_length");
    length += (size_t) many.length;
    count += many.count;
  }
  it->out = room (length);
  it->requests = room (count * sizeof *it->requests);
  for (i = 0; i < it->held; ++i) {
    many = vejgodat_build_all (it->parts[i].bytes, it->parts[i].length,
                               it->old_table, it->table_len, it->new_table,
                               it->table_len, it->me + i * it->processes,
                               it->epoch, it->out + at, length - at);
    must (many.refusal, "vejgodat_build_all");
    at += (size_t) many.length;
  }
  at = 0;
  while ((message = vejgodat_next_message (it->out, length, &at)) != NULL) {
    MPI_Isend (message, (int) vejgodat_message_bytes (message), MPI_BYTE,
               (int) vejgodat_message_receiver (message), 0, MPI_COMM_WORLD,
               &it->requests[it->sends++]);
  }
}

/* How many messages this process gets. */
static uint32_t
count_due (const padded * it)
{
  uint32_t           *senders = room (it->ranks * sizeof *senders);
  vejgodat_ranks      set;

  set = vejgodat_receive_set (it->old_table, it->table_len, it->new_table,
                              it->table_len, it->me, senders, it->ranks);
  must (set.refusal, "vejgodat_receive_set");
  free (senders);
  return set.count;
}

/* Deliver what is due, in whatever order it comes, and close the area. */
static void
receive_all (const padded * it, mesh_part * part)
{
  vejgodat_length     length;
  mesh_part           area, message;
  MPI_Status          status;
  uint32_t            due = count_due (it);
  int                 bytes;

  length = vejgodat_area_length (it->old_table, it->table_len, it->new_table,
                                 it->table_len, it->me, it->dimension);
  must (length.refusal, "vejgodat_area_length");
  area.length = (size_t) length.length;
  area.bytes = room (area.length);
  length = vejgodat_open_area (it->old_table, it->table_len, it->new_table,
                               it->table_len, it->me, it->dimension,
                               it->epoch, area.bytes, area.length);
  must (length.refusal, "vejgodat_open_area");
  while (due-- > 0) {
    MPI_Probe (MPI_ANY_SOURCE, 0, MPI_COMM_WORLD, &status);
    MPI_Get_count (&status, MPI_BYTE, &bytes);
    message.length = (size_t) bytes;
    message.bytes = room (message.length);
    MPI_Recv (message.bytes, bytes, MPI_BYTE, status.MPI_SOURCE, 0,
              MPI_COMM_WORLD, MPI_STATUS_IGNORE);
    must (vejgodat_deliver (area.bytes, area.length, message.bytes,
                            message.length), "vejgodat_deliver");
    free (message.bytes);
  }
  part->length = (size_t) vejgodat_area_part_bytes (area.bytes);
  part->bytes = room (part->length);
  length = vejgodat_close_area (area.bytes, area.length, part->bytes,
                                part->length);
  must (length.refusal, "vejgodat_close_area");
  free (area.bytes);
}

static padded
begin (const manifest * old, const int64_t * new_table, uint32_t epoch)
{
  padded              it;
  int                 size, rank;

  MPI_Comm_size (MPI_COMM_WORLD, &size);
  MPI_Comm_rank (MPI_COMM_WORLD, &rank);
  it.me = (uint32_t) rank;
  it.processes = (uint32_t) size;
  it.ranks = old->ranks > it.processes ? old->ranks : it.processes;
  it.held = (it.ranks - it.me + it.processes - 1) / it.processes;
  it.sends = 0;
  it.epoch = epoch;
  it.dimension = old->dimension;
  it.table_len = VEJGODAT_TABLE_BYTES (it.ranks);
  it.old_table = pad (old->table, old->ranks, it.ranks);
  it.new_table = pad (new_table, it.processes, it.ranks);
  it.parts = calloc (it.held, sizeof *it.parts);
  it.out = NULL;
  it.requests = NULL;
  if (it.parts == NULL) {
    complain ("restart", "no room for %u parts", (unsigned) it.held);
    MPI_Abort (MPI_COMM_WORLD, 1);
  }
  return it;
}

static void
end (padded * it)
{
  uint32_t            i;

  for (i = 0; i < it->held; ++i) {
    free (it->parts[i].bytes);
  }
  free (it->requests);
  free (it->out);
  free (it->parts);
  free (it->new_table);
  free (it->old_table);
}

int
restart (const char *folder, const manifest * old, const int64_t * new_table,
         uint32_t epoch, mesh_part * part)
{
  padded              it = begin (old, new_table, epoch);
  /* nothing is sent before all parts are read and right */
  const int           well = all_well (load_parts (folder, old, &it));

  if (well) {
    send_all (&it);
    receive_all (&it, part);
    MPI_Waitall ((int) it.sends, it.requests, MPI_STATUSES_IGNORE);
    relabel (part, it.me, it.new_table, it.table_len,
             (const uint8_t *) new_table,
             VEJGODAT_TABLE_BYTES (it.processes));
  }
  end (&it);
  return well;
}
