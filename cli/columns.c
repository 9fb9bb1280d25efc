/* vejgodat columns and rows: a part as a column file, and back. */
#include "cli.h"

#include <stdlib.h>

/* The library's call for either way. */
typedef vejgodat_length (*turn) (const uint8_t *, size_t, const uint8_t *,
                                 size_t, uint32_t, uint8_t *, size_t);

static int
turned (const arguments * a, turn way, int kind, const input * in,
        const input * table)
{
  frame               f = frame_of (a, in, table);
  uint8_t            *out = room (in->length);
  uint32_t            refusal = f.refusal;
  int                 status;

  if (refusal == VEJGODAT_OK) {
    refusal = way (in->bytes, in->length, f.table.bytes, f.table.length,
                   f.rank, out, in->length).refusal;
  }
  if (refusal == VEJGODAT_OK) {
    status = deliver_output (a, out, in->length);
  }
  else {
    status = complain_as (a, kind, in, table, refusal);
  }
  free (out);
  close_frame (&f);
  return status;
}

static int
run_turn (const arguments * a, turn way, int kind)
{
  input               in, table;
  const input        *given;
  int                 status = 1;

  if (table_given (a, &table, &given) == 0) {
    if (take_input (&in, a->names[0]) == 0) {
      status = turned (a, way, kind, &in, given);
      close_input (&in);
    }
    close_input (&table);
  }
  return status;
}

static int
run_columns (const arguments * a)
{
  return run_turn (a, vejgodat_part_to_columns, PART);
}

static int
run_rows (const arguments * a)
{
  return run_turn (a, vejgodat_columns_to_part, COLUMNS);
}

const command       command_columns = {
  "columns", "PART [--table TABLE [--rank R]] [-o FILE] [--json]",
  "store a part by columns, which packs better",
  "Writes the column file of a sound part to FILE or standard output.\n",
  TAKES (OPT_JSON) | TAKES (OPT_TABLE) | TAKES (OPT_RANK) | TAKES (OPT_OUT),
  1, 1, run_columns
};

const command       command_rows = {
  "rows", "COLUMNS [--table TABLE [--rank R]] [-o FILE] [--json]",
  "turn a column file into its part",
  "Writes the part of a sound column file to FILE or standard output.\n",
  TAKES (OPT_JSON) | TAKES (OPT_TABLE) | TAKES (OPT_RANK) | TAKES (OPT_OUT),
  1, 1, run_rows
};
