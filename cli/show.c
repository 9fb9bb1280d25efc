/* vejgodat show: what a file holds. */
#include "cli.h"

#include <stdlib.h>
#include <string.h>

/* A number of the header, where the file is long enough. */
static void
put_field (writer * w, const char *name, const view * v, size_t at)
{
  put_number (w, name, vejgodat_number_at (v->bytes + at));
}

static void
put_header (writer * w, const view * v)
{
  const size_t        later = v->kind == MESSAGE || v->kind == AREA ? 4 : 0;

  if (later > 0) {
    put_field (w, "epoch", v, 0);
  }
  put_field (w, "dimension", v, later);
  if (v->kind == MESH) {
    put_field (w, "trees", v, 4);
    return;
  }
  put_field (w, "all_trees", v, 4 + later);
  put_field (w, "ranks", v, 8 + later);
  if (v->kind == MESSAGE) {
    put_field (w, "sender", v, 16);
    put_field (w, "receiver", v, 20);
  }
  else {
    put_field (w, "rank", v, 12 + later);
  }
  if (v->kind == PART) {
    put_field (w, "first_tree", v, 16);
  }
  put_field (w, "trees", v, v->kind == MESSAGE ? 24 : 20);
  put_field (w, v->kind == AREA ? "ghosts_held" : "ghosts", v,
             v->kind == MESSAGE ? 28 : 24);
}

/* How many trees have each shape and each region. */
static void
put_counts (writer * w, const view * v)
{
  uint32_t           *regions = room (sizeof *regions * VEJGODAT_REGIONS);
  uint32_t            shapes[6] = { 0, 0, 0, 0, 0, 0 }, i;
  const uint8_t      *record;
  char                name[16];

  memset (regions, 0, sizeof *regions * VEJGODAT_REGIONS);
  for (i = 0; i < v->trees; ++i) {
    record = record_at (v, i);
    if (record[4] < 6) {
      ++shapes[record[4]];
    }
    if (vejgodat_region_at (record) < VEJGODAT_REGIONS) {
      ++regions[vejgodat_region_at (record)];
    }
  }
  begin (w, "shapes", '{');
  for (i = 0; i < 6; ++i) {
    if (shapes[i] > 0) {
      put_number (w, shape_names[i], shapes[i]);
    }
  }
  end (w, '}');
  begin (w, "regions", '{');
  for (i = 0; i < VEJGODAT_REGIONS; ++i) {
    if (regions[i] > 0) {
      sprintf (name, "%" PRIu32, i);
      put_number (w, name, regions[i]);
    }
  }
  end (w, '}');
  free (regions);
}

/* The ranks of the table that have a ghost of the part. Ghosts ascend. */
static void
put_ranks_beside (writer * w, const view * v, const input * table)
{
  const uint32_t      ranks = table_ranks (table);
  uint32_t           *beside = room (sizeof *beside * ranks);
  uint32_t            rank, low, high, middle, count = 0;
  vejgodat_range      range;

  for (rank = 0; rank < ranks; ++rank) {
    range = vejgodat_table_range (table->bytes, table->length, rank);
    low = 0;
    high = v->ghosts;
    while (low < high) {
      middle = low + (high - low) / 2;
      if (vejgodat_number_at (record_at (v, v->trees + middle)) < range.first) {
        low = middle + 1;
      }
      else {
        high = middle;
      }
    }
    if (range.refusal == VEJGODAT_OK && low < v->ghosts
        && vejgodat_number_at (record_at (v, v->trees + low)) - range.first
        < range.count) {
      beside[count++] = rank;
    }
  }
  put_numbers (w, "ranks_beside_it", beside, count);
  free (beside);
}

/* The senders of a sound area that are heard, and those that aren't. */
static void
put_senders (writer * w, const view * v)
{
  const uint32_t      ranks = vejgodat_number_at (v->bytes + 12);
  const uint32_t      rank = vejgodat_number_at (v->bytes + 16);
  const size_t        table_len = VEJGODAT_TABLE_BYTES (ranks);
  const uint8_t      *old_table = v->bytes + 32;
  const uint8_t      *words = old_table + 2 * table_len;
  uint32_t           *due = room (sizeof *due * ranks);
  uint32_t           *missing = room (sizeof *missing * ranks);
  uint32_t            i, heard = 0, waits = 0;
  const vejgodat_ranks set =
    vejgodat_receive_set (old_table, table_len, old_table + table_len,
                          table_len, rank, due, ranks);

  for (i = 0; i < set.count; ++i) {
    if ((words[due[i] / 8] >> due[i] % 8 & 1) != 0) {
      due[heard++] = due[i];
    }
    else {
      missing[waits++] = due[i];
    }
  }
  put_numbers (w, "senders_heard", due, heard);
  put_numbers (w, "senders_missing", missing, waits);
  free (due);
  free (missing);
}

/* A sound table: its ranges. */
static void
put_table (writer * w, const input * table)
{
  const uint32_t      ranks = table_ranks (table);
  vejgodat_range      range;
  uint32_t            rank, pair[2];
  char                words[80];

  put_number (w, "ranks", ranks);
  put_number (w, "trees", table_trees (table));
  begin (w, "ranges", '[');
  for (rank = 0; rank < ranks; ++rank) {
    range = vejgodat_table_range (table->bytes, table->length, rank);
    pair[0] = range.first;
    pair[1] = range.count;
    if (w->json) {
      put_numbers (w, NULL, pair, 2);
    }
    else if (range.count == 0) {
      printf ("  rank %" PRIu32 ": no trees\n", rank);
    }
    else {
      sprintf (words, "trees %" PRIu32 " to %" PRIu32, range.first,
               range.first + (range.count - 1));
      printf ("  rank %" PRIu32 ": %s, %" PRIu32 " in all\n", rank, words,
              range.count);
    }
  }
  end (w, ']');
}

static int
show_record (const arguments * a, writer * w, const view * v,
             const char *name)
{
  uint32_t            index;

  if (a->value[OPT_RECORD] != NULL) {
    index = number_of (a->command, a->value[OPT_RECORD]);
    if (record_at (v, index) == NULL) {
      return complain (name, "no record has this place");
    }
  }
  else if (!record_with (v, number_of (a->command, a->value[OPT_TREE]),
                         &index)) {
    return complain (name, "no tree or ghost has this number");
  }
  if (w->json) {
    begin (w, NULL, '{');
  }
  write_record (w, v, index);
  if (w->json) {
    end (w, '}');
    finish (w);
  }
  return 0;
}

/* Header and counts of a mesh, a part, a message or an area. */
static void
show_records (writer * w, const view * v, const verdict * verdict,
              const input * table)
{
  put_header (w, v);
  if (!is_sound (verdict)) {
    return;
  }
  if (v->kind == AREA) {
    put_senders (w, v);
    return;
  }
  put_counts (w, v);
  if (v->kind == PART && table != NULL) {
    put_ranks_beside (w, v, table);
  }
  else if (v->kind == PART && !w->json) {
    put_text (w, "ranks_beside_it", "known with --table only");
  }
}

static void
show_all (writer * w, const input * in, const verdict * verdict,
          const view * v, const input * table)
{
  char                words[200];
  input               read;

  begin (w, NULL, '{');
  put_text (w, "file", in->name);
  if (verdict->kind == KINDS) {
    put_null (w, "kind");
  }
  else {
    put_text (w, "kind", kind_names[verdict->kind]);
    put_text (w, "kind_by", verdict->by);
  }
  put_number (w, "bytes", in->length);
  if (verdict->kind == PART || verdict->kind == COLUMNS) {
    put_text (w, "table", !verdict->own ? "given" : w->json ? "header"
              : "made from its header");
  }
  put_flag (w, "sound", is_sound (verdict));
  if (!is_sound (verdict)) {
    write_verdict (verdict, words, sizeof words);
    put_text (w, "words", words);
  }
  if (v->bytes != NULL) {
    show_records (w, v, verdict, table);
  }
  else if (verdict->kind == TABLE && is_sound (verdict)) {
    if (!verdict->text) {
      put_table (w, in);
    }
    else if (read_table (in, &read) == NULL) {
      put_table (w, &read);
      close_input (&read);
    }
  }
  end (w, '}');
  finish (w);
}

static int
show_input (const arguments * a, const input * in, const input * table)
{
  writer              w = { a->value[OPT_JSON] != NULL, 0, 1 };
  const verdict       verdict = judge (a, in, table);
  uint8_t            *rows = NULL;
  view                v;
  int                 status = 0;

  memset (&v, 0, sizeof v);
  if (verdict.kind == COLUMNS) {
    rows = rows_of (in->bytes, in->length);
    if (rows != NULL) {
      look (&v, PART, rows, in->length);
    }
  }
  else if (verdict.kind != TABLE && verdict.kind != KINDS
           && !look (&v, verdict.kind, in->bytes, in->length)) {
    v.bytes = NULL;
  }
  if (a->value[OPT_TREE] == NULL && a->value[OPT_RECORD] == NULL) {
    show_all (&w, in, &verdict, &v, table);
    status = !is_sound (&verdict);
  }
  else if (v.bytes == NULL) {
    status = complain (in->name, "has no records that can be read");
  }
  else {
    status = show_record (a, &w, &v, in->name);
  }
  free (rows);
  return status;
}

static int
run (const arguments * a)
{
  input               in, table;
  const input        *given;
  int                 status = 1;

  if (a->value[OPT_TREE] != NULL && a->value[OPT_RECORD] != NULL) {
    bad_usage (a->command, "only one of these", "--tree and --record");
  }
  if (table_given (a, &table, &given) == 0) {
    if (take_input (&in, a->names[0]) == 0) {
      status = show_input (a, &in, given);
      close_input (&in);
    }
    close_input (&table);
  }
  return status;
}

const command       command_show = {
  "show", "FILE [--tree K | --record I] [--table TABLE [--rank R]] [--as KIND]"
    " [--json]",
  "say what a file holds, or one record of it",
  "Writes the header's numbers, the trees of each shape and region, and of a\n"
    "part whose table is given the ranks that have its ghosts. --tree and\n"
    "--record write one record with its six links, also of a file that isn't\n"
    "sound, as far as its bytes reach: there the status is 0 if the record is\n"
    "there, else it is 0 only if the file is sound.\n",
  TAKES (OPT_JSON) | TAKES (OPT_TABLE) | TAKES (OPT_RANK) | TAKES (OPT_AS)
    | TAKES (OPT_TREE) | TAKES (OPT_RECORD),
  1, 1, run
};
