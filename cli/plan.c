/* vejgodat plan: who sends which trees to whom. */
#include "cli.h"
#include "picture.h"

#include <stdlib.h>
#include <string.h>

typedef struct
{
  input               old, new;
  folder              parts;    /* of the old table, with --parts */
  int                 messages; /* bytes are those of messages */
  move               *moves;
  uint64_t           *bytes;    /* of each move */
  size_t              count, space;
}
plan;

static void
add_move (plan * p, move m, uint64_t bytes)
{
  const size_t        space = 2 * p->space + 64;
  move               *moves;
  uint64_t           *counts;

  if (p->count == p->space) {
    moves = room (sizeof *moves * space);
    counts = room (sizeof *counts * space);
    if (p->count > 0) {
      memcpy (moves, p->moves, sizeof *moves * p->count);
      memcpy (counts, p->bytes, sizeof *counts * p->count);
    }
    free (p->moves);
    free (p->bytes);
    p->moves = moves;
    p->bytes = counts;
    p->space = space;
  }
  p->moves[p->count] = m;
  p->bytes[p->count++] = bytes;
}

/* The lengths of a rank's messages, one for each receiver in its order. */
static int
message_lengths (const plan * p, uint32_t rank, uint64_t * lengths,
                 uint32_t count)
{
  arguments           as;
  input               part;
  vejgodat_many       many;
  uint8_t            *all;
  const uint8_t      *message;
  size_t              at = 0;
  uint32_t            i = 0;

  if (take_input (&part, p->parts.paths[rank]) != 0) {
    return 1;
  }
  many = vejgodat_build_all_length (part.bytes, part.length, p->old.bytes,
                                    p->old.length, p->new.bytes,
                                    p->new.length, rank);
  all = room ((size_t) many.length);
  if (many.refusal == VEJGODAT_OK) {
    many = vejgodat_build_all (part.bytes, part.length, p->old.bytes,
                               p->old.length, p->new.bytes, p->new.length,
                               rank, 0, all, (size_t) many.length);
  }
  if (many.refusal != VEJGODAT_OK) {
    free (all);
    memset (&as, 0, sizeof as);
    complain_as (&as, PART, &part, &p->old, many.refusal);
    close_input (&part);
    return 1;
  }
  close_input (&part);
  while (i < count && (message = vejgodat_next_message
                       (all, (size_t) many.length, &at)) != NULL) {
    lengths[i++] = vejgodat_message_bytes (message);
  }
  free (all);
  return 0;
}

/* The moves from one rank; `receivers` and `lengths` have room for P. */
static int
moves_from (plan * p, uint32_t rank, uint32_t * receivers, uint64_t * lengths)
{
  const vejgodat_ranks set =
    vejgodat_send_set (p->old.bytes, p->old.length, p->new.bytes,
                       p->new.length, rank, receivers, table_ranks (&p->old));
  vejgodat_range      range;
  move                m;
  uint32_t            i;

  if (set.refusal != VEJGODAT_OK) {
    return complain_refusal (p->new.name, set.refusal);
  }
  if (p->messages && set.count > 0
      && message_lengths (p, rank, lengths, set.count) != 0) {
    return 1;
  }
  for (i = 0; i < set.count; ++i) {
    range = vejgodat_trees_sent (p->old.bytes, p->old.length, p->new.bytes,
                                 p->new.length, rank, receivers[i]);
    m.sender = rank;
    m.receiver = receivers[i];
    m.first = range.first;
    m.last = range.first + (range.count - 1);
    add_move (p, m, p->messages ? lengths[i] : 64 * (uint64_t) range.count);
  }
  return 0;
}

static int
find_moves (plan * p)
{
  const uint32_t      ranks = table_ranks (&p->old);
  uint32_t           *receivers = room (sizeof *receivers * ranks);
  uint64_t           *lengths = room (sizeof *lengths * ranks);
  progress            along = progress_of ("planning rank");
  uint32_t            rank;
  int                 status = 0;

  memset (lengths, 0, sizeof *lengths * ranks);
  for (rank = 0; rank < ranks && status == 0; ++rank) {
    progress_at (&along, rank, ranks);
    status = moves_from (p, rank, receivers, lengths);
  }
  progress_end (&along);
  free (receivers);
  free (lengths);
  return status;
}

static uint32_t
trees_of (const move * m)
{
  return m->last - m->first + 1;
}

/* The rank that sends and gets the most bytes to and from others, the lowest of several; 0 bytes where nothing
 * moves. */
static uint32_t
busiest (const plan * p, uint64_t * most)
{
  const uint32_t      ranks = table_ranks (&p->old);
  uint64_t           *busy = room (sizeof *busy * ranks);
  uint32_t            rank, best = 0;
  size_t              i;

  memset (busy, 0, sizeof *busy * ranks);
  for (i = 0; i < p->count; ++i) {
    if (p->moves[i].sender != p->moves[i].receiver) {
      busy[p->moves[i].sender] += p->bytes[i];
      busy[p->moves[i].receiver] += p->bytes[i];
    }
  }
  for (rank = 1; rank < ranks; ++rank) {
    best = busy[rank] > busy[best] ? rank : best;
  }
  *most = busy[best];
  free (busy);
  return best;
}

static void
write_moves (const plan * p, writer * w)
{
  const move         *m;
  size_t              i;

  if (w->json) {
    begin (w, "moves", '[');
  }
  else {
    printf ("sender receiver first last trees bytes\n");
  }
  for (i = 0; i < p->count; ++i) {
    m = &p->moves[i];
    if (w->json) {
      begin (w, NULL, '{');
      put_number (w, "sender", m->sender);
      put_number (w, "receiver", m->receiver);
      put_number (w, "first", m->first);
      put_number (w, "last", m->last);
      put_number (w, "trees", trees_of (m));
      put_number (w, "bytes", p->bytes[i]);
      end (w, '}');
    }
    else {
      printf ("%" PRIu32 " %" PRIu32 " %" PRIu32 " %" PRIu32 " %" PRIu32 " %"
              PRIu64 "\n", m->sender, m->receiver, m->first, m->last,
              trees_of (m), p->bytes[i]);
    }
  }
  if (w->json) {
    end (w, ']');
  }
}

static void
write_sums (const plan * p, writer * w)
{
  uint64_t            trees = 0, bytes = 0, messages = 0, most;
  const uint32_t      rank = busiest (p, &most);
  size_t              i;

  for (i = 0; i < p->count; ++i) {
    if (p->moves[i].sender != p->moves[i].receiver) {
      ++messages;
      trees += trees_of (&p->moves[i]);
      bytes += p->bytes[i];
    }
  }
  put_number (w, "messages", p->count);
  put_number (w, "messages_to_others", messages);
  put_number (w, "trees_to_others", trees);
  put_number (w, "bytes_to_others", bytes);
  put_text (w, "bytes_of", p->messages ? "messages"
            : "trees alone, 64 each: --parts adds headers and ghosts");
  if (most == 0) {
    put_null (w, "busiest_rank");
  }
  else {
    put_number (w, "busiest_rank", rank);
    put_number (w, "bytes_it_sends_and_gets", most);
  }
}

static int
write_picture (const arguments * a, const plan * p)
{
  char               *text = NULL;
  size_t              length;
  FILE               *out = open_memstream (&text, &length);
  int                 drawn, status;

  drawn = out != NULL && draw_moves (out, table_ranks (&p->old),
                                     table_trees (&p->old), p->moves,
                                     p->count);
  if (out == NULL || fclose (out) != 0 || !drawn) {
    free (text);
    return complain ("the picture", "no memory for it");
  }
  status = write_output (a->value[OPT_OUT], text, length);
  free (text);
  return status;
}

static int
write_plan (const arguments * a, const plan * p)
{
  writer              w = { a->value[OPT_JSON] != NULL, 0, 1 };

  if (a->value[OPT_SVG] != NULL) {
    return write_picture (a, p);
  }
  begin (&w, NULL, '{');
  put_number (&w, "ranks", table_ranks (&p->old));
  put_number (&w, "trees", table_trees (&p->old));
  write_moves (p, &w);
  write_sums (p, &w);
  end (&w, '}');
  finish (&w);
  return 0;
}

static int
run (const arguments * a)
{
  plan                p;
  int                 status;

  memset (&p, 0, sizeof p);
  if (a->value[OPT_SVG] != NULL ? a->value[OPT_JSON] != NULL
      : a->value[OPT_OUT] != NULL) {
    bad_usage (a->command, "these don't go together", "arguments");
  }
  status = take_table (&p.old, a->names[0]) != 0
    || take_table (&p.new, a->names[1]) != 0;
  if (status == 0 && a->value[OPT_PARTS] != NULL) {
    status = take_folder (&p.parts, a->value[OPT_PARTS]);
    p.messages = 1;
  }
  if (status == 0 && p.messages
      && (p.parts.ranks != table_ranks (&p.old)
          || p.parts.trees != table_trees (&p.old))) {
    status = complain (a->value[OPT_PARTS],
                       "the parts differ from the old table in P or K");
  }
  if (status == 0) {
    status = find_moves (&p);
  }
  if (status == 0) {
    status = write_plan (a, &p);
  }
  close_input (&p.old);
  close_input (&p.new);
  close_folder (&p.parts);
  free (p.moves);
  free (p.bytes);
  return status;
}

const command       command_plan = {
  "plan", "OLD NEW [--parts DIR] [--json | --svg [-o FILE]]",
  "say who sends which trees to whom between two tables",
  "Writes a line for each move, a rank's moves to itself among them, then their\n"
    "sums. Bytes are those of the trees, 64 each, since tables don't tell the\n"
    "ghosts; with the parts under the old table they are those of the messages.\n"
    "The busiest rank sends and gets the most bytes, its own message left out.\n"
    "--svg draws the moves.\n",
  TAKES (OPT_JSON) | TAKES (OPT_PARTS) | TAKES (OPT_SVG) | TAKES (OPT_OUT),
  2, 2, run
};
