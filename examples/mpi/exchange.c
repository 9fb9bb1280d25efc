#include "exchange.h"

#include <assert.h>
#include <stdio.h>
#include <stdlib.h>
#include <string.h>

void
must (uint32_t refusal, const char *call)
{
  int                 rank;

  if (refusal != VEJGODAT_OK) {
    MPI_Comm_rank (MPI_COMM_WORLD, &rank);
    fprintf (stderr, "rank %d: %s: refusal %u, %s\n", rank, call,
             (unsigned) refusal, vejgodat_refusal_text (refusal));
    MPI_Abort (MPI_COMM_WORLD, 1);
  }
}

void
must_be_sound (vejgodat_fault fault, const char *name)
{
  char                text[200];
  int                 rank;

  must (fault.refusal, name);
  if (fault.fault != VEJGODAT_OK) {
    vejgodat_write_fault (fault, text, sizeof text);
    MPI_Comm_rank (MPI_COMM_WORLD, &rank);
    fprintf (stderr, "rank %d: %s: %s\n", rank, name, text);
    MPI_Abort (MPI_COMM_WORLD, 1);
  }
}

void               *
room (size_t bytes)
{
  void               *at = malloc (bytes > 0 ? bytes : 1);

  if (at == NULL) {
    fprintf (stderr, "no room for %lu bytes\n", (unsigned long) bytes);
    MPI_Abort (MPI_COMM_WORLD, 1);
  }
  return at;
}

int
apart (const void *a, size_t a_len, const void *b, size_t b_len)
{
  const uintptr_t     x = (uintptr_t) a, y = (uintptr_t) b;

  return a_len == 0 || b_len == 0
    || (x < y ? a_len <= y - x : b_len <= x - y);
}

/* FNV-1a */
static uint64_t
mix (uint64_t digest, const uint8_t * bytes, size_t length)
{
  while (length-- > 0) {
    digest = (digest ^ *bytes++) * UINT64_C (0x100000001b3);
  }
  return digest;
}

/* End the run, on all ranks, unless all have the same tables, and so P and K, and the same epoch, and P is the number of
 * ranks of comm. Tables that differ would let a rank wait for messages that nobody sends. */
static void
must_agree (MPI_Comm comm, uint32_t epoch, const uint8_t * old_table,
            const uint8_t * new_table, size_t table_len)
{
  const uint64_t      numbers[2] = { epoch, table_len };
  uint64_t            digest, mine[2], most[2];
  const char         *why = NULL;
  int                 size, rank;

  MPI_Comm_size (comm, &size);
  MPI_Comm_rank (comm, &rank);
  digest = mix (UINT64_C (0xcbf29ce484222325), (const uint8_t *) numbers,
                sizeof numbers);
  digest = mix (digest, old_table, table_len);
  digest = mix (digest, new_table, table_len);
  /* all are equal where the largest is the least, whose complement is the largest of the complements */
  mine[0] = digest;
  mine[1] = ~digest;
  MPI_Allreduce (mine, most, 2, MPI_UINT64_T, MPI_MAX, comm);
  if (most[0] != ~most[1]) {
    why = "the ranks have different tables or epochs: make them on one rank"
      " and broadcast them";
  }
  else if (table_len != VEJGODAT_TABLE_BYTES (size)) {
    why = "the tables aren't for as many ranks as the communicator has";
  }
  if (why != NULL) {
    if (rank == 0) {
      fprintf (stderr, "exchange: %s\n", why);
      MPI_Abort (comm, 1);
    }
    /* the others wait here until rank 0 has ended them */
    MPI_Barrier (comm);
  }
}

/* what a rank works with from one table to the next */
typedef struct
{
  MPI_Comm            comm;
  int                 tag;
  uint32_t            me, due, sends;
  const uint8_t      *old_table, *new_table;
  size_t              table_len, area_len;
  uint8_t            *area, *out;
  MPI_Request        *requests;
}
move;

/* Open the area in which the new part is put together. */
static void
open_area (move * it, uint32_t epoch, uint32_t dimension)
{
  vejgodat_length     length;

  length = vejgodat_area_length (it->old_table, it->table_len, it->new_table,
                                 it->table_len, it->me, dimension);
  must (length.refusal, "vejgodat_area_length");
  it->area_len = (size_t) length.length;
  it->area = room (it->area_len);
  length = vejgodat_open_area (it->old_table, it->table_len, it->new_table,
                               it->table_len, it->me, dimension, epoch,
                               it->area, it->area_len);
  must (length.refusal, "vejgodat_open_area");
}

/* Build the messages to all ranks of the send set, this rank too where it keeps a tree, in one buffer, and send each from
 * there. */
static void
send_all (move * it, uint32_t epoch, const mesh_part * part)
{
  const uint8_t      *message;
  size_t              at = 0;
  vejgodat_many       many;

  many = vejgodat_build_all_length (part->bytes, part->length, it->old_table,
                                    it->table_len, it->new_table,
                                    it->table_len, it->me);
  must (many.refusal, "vejgodat_build_all_length");
  it->out = room ((size_t) many.length);
  assert (apart (it->out, (size_t) many.length, part->bytes, part->length));
  many = vejgodat_build_all (part->bytes, part->length, it->old_table,
                             it->table_len, it->new_table, it->table_len,
                             it->me, epoch, it->out, (size_t) many.length);
  must (many.refusal, "vejgodat_build_all");
  it->sends = 0;
  it->requests = room (many.count * sizeof *it->requests);
  while ((message = vejgodat_next_message (it->out, (size_t) many.length,
                                           &at)) != NULL) {
    /* a message has at most 32 + 64 K bytes, which an int holds */
    MPI_Isend (message, (int) vejgodat_message_bytes (message), MPI_BYTE,
               (int) vejgodat_message_receiver (message), it->tag, it->comm,
               &it->requests[it->sends++]);
  }
}

/* How many messages are due: as many as the receive set has ranks. */
static void
count_due (move * it, int size)
{
  uint32_t           *ranks = room ((size_t) size * sizeof *ranks);
  vejgodat_ranks      set;

  set = vejgodat_receive_set (it->old_table, it->table_len, it->new_table,
                              it->table_len, it->me, ranks, (size_t) size);
  must (set.refusal, "vejgodat_receive_set");
  it->due = set.count;
  free (ranks);
}

/* Receive all messages one after the other, in whatever order they come, and deliver them under one check of the area. */
static void
take_together (move * it)
{
  uint8_t            *all = NULL, *more;
  uint32_t           *answers = room (it->due * sizeof *answers);
  uint32_t            i;
  size_t              length = 0, have = 0;
  int                 bytes;
  vejgodat_count      count;
  MPI_Status          status;

  for (i = 0; i < it->due; ++i, length += (size_t) bytes) {
    MPI_Probe (MPI_ANY_SOURCE, it->tag, it->comm, &status);
    MPI_Get_count (&status, MPI_BYTE, &bytes);
    if (have - length < (size_t) bytes) {
      have = 2 * have + (size_t) bytes;
      more = room (have);
      if (length > 0) {
        memcpy (more, all, length);
      }
      free (all);
      all = more;
    }
    MPI_Recv (all + length, bytes, MPI_BYTE, status.MPI_SOURCE, it->tag,
              it->comm, MPI_STATUS_IGNORE);
  }
  count = vejgodat_deliver_all (it->area, it->area_len, all, length, answers,
                                it->due);
  must (count.refusal, "vejgodat_deliver_all");
  for (i = 0; i < count.count; ++i) {
    must (answers[i], "vejgodat_deliver_all, a message");
  }
  free (all);
  free (answers);
}

/* Deliver each message as it comes: less memory, and work while others are under way; but each call checks the area. */
static void
take_as_they_come (move * it)
{
  uint8_t            *message;
  uint32_t            i;
  int                 bytes;
  MPI_Status          status;

  for (i = 0; i < it->due; ++i) {
    MPI_Probe (MPI_ANY_SOURCE, it->tag, it->comm, &status);
    MPI_Get_count (&status, MPI_BYTE, &bytes);
    message = room ((size_t) bytes);
    MPI_Recv (message, bytes, MPI_BYTE, status.MPI_SOURCE, it->tag, it->comm,
              MPI_STATUS_IGNORE);
    must (vejgodat_deliver (it->area, it->area_len, message, (size_t) bytes),
          "vejgodat_deliver");
    free (message);
  }
}

/* Put the new part in the place of the old one, whose messages are built. */
static void
close_area (move * it, mesh_part * part)
{
  vejgodat_length     length;

  free (part->bytes);
  /* the length stands in the area's header; the close checks the area, and says 20 if a sender isn't heard */
  part->length = (size_t) vejgodat_area_part_bytes (it->area);
  part->bytes = room (part->length);
  assert (apart (part->bytes, part->length, it->area, it->area_len));
  length = vejgodat_close_area (it->area, it->area_len, part->bytes,
                                part->length);
  must (length.refusal, "vejgodat_close_area");
}

static void
exchange_by (void (*take) (move *), MPI_Comm comm, uint32_t epoch,
             const uint8_t * old_table, const uint8_t * new_table,
             size_t table_len, mesh_part * part)
{
  int                 size, rank;
  move                it;

  MPI_Comm_size (comm, &size);
  MPI_Comm_rank (comm, &rank);
  it.comm = comm;
  /* messages of the next epoch may come before this one is done: the tag keeps them apart */
  it.tag = (int) (epoch % 32768);
  it.me = (uint32_t) rank;
  it.old_table = old_table;
  it.new_table = new_table;
  it.table_len = table_len;
  must_agree (comm, epoch, old_table, new_table, table_len);
  /* what is built from is sound, so its dimension may be read */
  send_all (&it, epoch, part);
  open_area (&it, epoch, vejgodat_part_dimension (part->bytes));
  count_due (&it, size);
  take (&it);
  close_area (&it, part);
  MPI_Waitall ((int) it.sends, it.requests, MPI_STATUSES_IGNORE);
  free (it.requests);
  free (it.out);
  free (it.area);
}

void
exchange (MPI_Comm comm, uint32_t epoch, const uint8_t * old_table,
          const uint8_t * new_table, size_t table_len, mesh_part * part)
{
  exchange_by (take_together, comm, epoch, old_table, new_table, table_len,
               part);
}

void
exchange_as_they_come (MPI_Comm comm, uint32_t epoch,
                       const uint8_t * old_table, const uint8_t * new_table,
                       size_t table_len, mesh_part * part)
{
  exchange_by (take_as_they_come, comm, epoch, old_table, new_table,
               table_len, part);
}
