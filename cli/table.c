/* vejgodat table: make a table, or write it as text. */
#include "cli.h"

#include <stdlib.h>
#include <string.h>

/* Room for the table of P ranks. */
static void
make_room (input * table, const char *name, uint32_t ranks)
{
  memset (table, 0, sizeof *table);
  table->name = name;
  table->length = VEJGODAT_TABLE_BYTES (ranks);
  table->memory = room (table->length);
  table->bytes = table->memory;
}

/* What a call that writes a table answered: 0, or the status. `ranks` names what has the ranks. */
static int
made (input * table, const char *ranks, vejgodat_length answer)
{
  if (answer.refusal != VEJGODAT_OK) {
    close_input (table);
    return complain_refusal (answer.refusal == VEJGODAT_RANKS
                             || answer.refusal == VEJGODAT_WEIGHTS ? ranks
                             : table->name, answer.refusal);
  }
  return 0;
}

static int
from_leaves (const arguments * a, input * table)
{
  const char         *name = a->value[OPT_LEAVES];
  uint32_t           *leaves = NULL, *weights = NULL, ranks;
  size_t              trees, count;
  vejgodat_length     answer;
  int                 status = 1;

  if (take_list (name, &leaves, &trees) != 0) {
    return 1;
  }
  if (a->value[OPT_WEIGHTS] == NULL) {
    ranks = number_of (a->command, a->value[OPT_RANKS]);
    make_room (table, name, ranks <= VEJGODAT_MAX_RANKS ? ranks : 0);
    answer = vejgodat_table_from_leaves (ranks, leaves, trees, table->memory,
                                         table->length);
    status = made (table, "--ranks", answer);
  }
  else if (take_list (a->value[OPT_WEIGHTS], &weights, &count) == 0) {
    make_room (table, name,
               count <= VEJGODAT_MAX_RANKS ? (uint32_t) count : 0);
    answer = vejgodat_table_from_weights (weights, count, leaves, trees,
                                          table->memory, table->length);
    status = made (table, a->value[OPT_WEIGHTS], answer);
  }
  free (leaves);
  free (weights);
  return status;
}

/* Pairs of first tree and count, one for each rank. */
static int
from_ranges (const arguments * a, input * table)
{
  const char         *name = a->value[OPT_RANGES];
  uint32_t           *pairs, *first, *count, ranks;
  size_t              numbers, i;
  int                 status;

  if (take_list (name, &pairs, &numbers) != 0) {
    return 1;
  }
  if (numbers % 2 != 0 || numbers / 2 > VEJGODAT_MAX_RANKS) {
    free (pairs);
    return numbers % 2 != 0 ? complain (name, "a first tree without a count")
      : complain_refusal (name, VEJGODAT_RANKS);
  }
  ranks = (uint32_t) (numbers / 2);
  first = room (sizeof *first * ranks);
  count = room (sizeof *count * ranks);
  for (i = 0; i < ranks; ++i) {
    first[i] = pairs[2 * i];
    count[i] = pairs[2 * i + 1];
  }
  make_room (table, name, ranks);
  status = made (table, name,
                 vejgodat_write_table (ranks, first, ranks, count, ranks,
                                       table->memory, table->length));
  free (pairs);
  free (first);
  free (count);
  return status;
}

static int
from_parts (const arguments * a, input * table)
{
  folder              f;
  int                 status = take_folder (&f, a->value[OPT_PARTS]);

  if (status == 0) {
    make_room (table, a->value[OPT_PARTS], f.ranks);
    status = made (table, table->name,
                   vejgodat_write_table (f.ranks, f.first, f.ranks, f.count,
                                         f.ranks, table->memory,
                                         table->length));
    if (status == 0 && table_trees (table) != f.trees) {
      close_input (table);
      status = complain (table->name, "the parts don't have all trees");
    }
    close_folder (&f);
  }
  return status;
}

static int64_t
entry_of (const input * table, size_t i)
{
  const uint8_t      *at = table->bytes + 8 * i;

  return (int64_t) ((uint64_t) vejgodat_number_at (at)
                    | (uint64_t) vejgodat_number_at (at + 4) << 32);
}

static void
put_entries (FILE * out, const input * table)
{
  size_t              i;

  for (i = 0; i < table->length / 8; ++i) {
    fprintf (out, "%s%" PRId64, i == 0 ? "" : ",", entry_of (table, i));
  }
}

/* The text in memory, so that a file is written whole. */
static int
write_text (const arguments * a, const input * table)
{
  char               *text = NULL;
  size_t              length;
  FILE               *out = open_memstream (&text, &length);
  int                 status;

  if (out != NULL) {
    put_entries (out, table);
    fprintf (out, "\n");
  }
  if (out == NULL || fclose (out) != 0) {
    free (text);
    return complain (table->name, "no memory for its text");
  }
  status = deliver_output (a, text, length);
  free (text);
  return status;
}

static void
write_answer (const arguments * a, const input * table)
{
  writer              w = { 1, 0, 1 };

  if (a->value[OPT_JSON] == NULL) {
    put_entries (stdout, table);
    printf ("\n");
    return;
  }
  begin (&w, NULL, '{');
  put_number (&w, "ranks", table_ranks (table));
  put_number (&w, "trees", table_trees (table));
  begin (&w, "entries", '[');
  put_entries (stdout, table);
  end (&w, ']');
  end (&w, '}');
  finish (&w);
}

static int
run (const arguments * a)
{
  const int           ways = (a->count > 0) + (a->value[OPT_LEAVES] != NULL)
    + (a->value[OPT_RANGES] != NULL) + (a->value[OPT_PARTS] != NULL);
  const int           leaves = a->value[OPT_LEAVES] != NULL;
  const int           shares = (a->value[OPT_RANKS] != NULL)
    + (a->value[OPT_WEIGHTS] != NULL);
  input               table;
  int                 status;

  if (ways != 1 || shares != leaves
      || (a->value[OPT_TEXT] != NULL && a->value[OPT_OUT] == NULL)) {
    bad_usage (a->command, "these don't go together", "arguments");
  }
  status = a->count > 0 ? take_table (&table, a->names[0])
    : leaves ? from_leaves (a, &table)
    : a->value[OPT_RANGES] != NULL ? from_ranges (a, &table)
    : from_parts (a, &table);
  if (status != 0) {
    return status;
  }
  if (a->value[OPT_OUT] == NULL) {
    write_answer (a, &table);
  }
  else if (a->value[OPT_TEXT] != NULL) {
    status = write_text (a, &table);
  }
  else {
    status = deliver_output (a, table.bytes, table.length);
  }
  close_input (&table);
  return status;
}

const command       command_table = {
  "table", "TABLE | --leaves FILE --ranks P | --leaves FILE --weights FILE |\n"
    "       --ranges FILE | --parts DIR   [-o FILE [--text]] [--json]",
  "make an offset table, or write one as text",
  "Makes the table that shares leaves out evenly or by weights, that of given\n"
    "ranges, or the one that a folder of parts was cut with, by their headers.\n"
    "Lists are text, with commas, blanks or line ends between numbers. A TABLE,\n"
    "here and in every command, is bytes or text. It is written as text to\n"
    "standard output, or as bytes to FILE, with --text as text.\n",
  TAKES (OPT_JSON) | TAKES (OPT_OUT) | TAKES (OPT_LEAVES) | TAKES (OPT_RANKS)
    | TAKES (OPT_WEIGHTS) | TAKES (OPT_RANGES) | TAKES (OPT_PARTS)
    | TAKES (OPT_TEXT),
  0, 1, run
};
