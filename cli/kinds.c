/* What a file is, and whether it is sound as that. */
#include "cli.h"

#include <stdlib.h>
#include <string.h>

const char         *const kind_names[KINDS + 1] =
  { "mesh", "part", "columns", "message", "area", "table", "unknown" };

const char         *const shape_names[6] =
  { "quadrilateral", "triangle", "hexahedron", "tetrahedron", "prism",
  "pyramid"
};

/* Write the least table that has the range of a part's header: rank 0 has all trees before it and the next rank all
 * after it, whatever ranks have them in truth. */
static uint32_t
header_table (const input * in, input * table)
{
  const uint8_t      *part = in->bytes;
  uint32_t           *first, *count, ranks, rank, refusal;
  uint64_t            after;

  if (in->length < 32) {
    return VEJGODAT_PART;
  }
  ranks = vejgodat_part_ranks (part);
  rank = vejgodat_part_rank (part);
  after = (uint64_t) vejgodat_part_first (part) + vejgodat_part_trees (part);
  if (ranks > VEJGODAT_MAX_RANKS || rank >= ranks
      || after > vejgodat_part_K (part)) {
    return VEJGODAT_PART;
  }
  first = room (sizeof *first * ranks);
  count = room (sizeof *count * ranks);
  memset (first, 0, sizeof *first * ranks);
  memset (count, 0, sizeof *count * ranks);
  count[0] = vejgodat_part_first (part);
  first[rank] = vejgodat_part_first (part);
  count[rank] = vejgodat_part_trees (part);
  if (rank + 1 < ranks) {
    first[rank + 1] = (uint32_t) after;
    count[rank + 1] = (uint32_t) (vejgodat_part_K (part) - after);
  }
  table->memory = room (VEJGODAT_TABLE_BYTES (ranks));
  table->bytes = table->memory;
  table->length = VEJGODAT_TABLE_BYTES (ranks);
  refusal = vejgodat_write_table (ranks, first, ranks, count, ranks,
                                  table->memory, table->length).refusal;
  free (first);
  free (count);
  return refusal;
}

frame
frame_of (const arguments * a, const input * in, const input * table)
{
  frame               f;

  memset (&f, 0, sizeof f);
  if (a->value[OPT_RANK] != NULL) {
    f.rank = number_of (a->command, a->value[OPT_RANK]);
  }
  else if (in->length >= 32) {
    f.rank = vejgodat_part_rank (in->bytes);
  }
  if (table != NULL) {
    f.table = *table;
    f.table.memory = NULL;
    f.table.mapped = 0;
  }
  else {
    f.own = 1;
    f.refusal = header_table (in, &f.table);
  }
  return f;
}

void
close_frame (frame * f)
{
  close_input (&f->table);
}

int
kind_given (const arguments * a)
{
  int                 kind;

  if (a->value[OPT_AS] == NULL) {
    return KINDS;
  }
  for (kind = 0; kind < KINDS; ++kind) {
    if (strcmp (a->value[OPT_AS], kind_names[kind]) == 0) {
      return kind;
    }
  }
  bad_usage (a->command,
             "a kind is mesh, part, columns, message, area or table",
             a->value[OPT_AS]);
  return KINDS;
}

int
table_given (const arguments * a, input * table, const input ** given)
{
  *given = NULL;
  memset (table, 0, sizeof *table);
  if (a->value[OPT_TABLE] == NULL) {
    return 0;
  }
  *given = table;
  return take_table (table, a->value[OPT_TABLE]);
}

static vejgodat_fault
refused (uint32_t refusal)
{
  vejgodat_fault      fault = { refusal, 0, 0, 0, 0 };

  return fault;
}

uint8_t            *
rows_of (const uint8_t * columns, size_t length)
{
  uint8_t            *part;
  size_t              n, g, i, j;

  if (length < 32) {
    return NULL;
  }
  n = vejgodat_part_trees (columns);
  g = vejgodat_part_ghosts (columns);
  if (length != VEJGODAT_PART_BYTES (n, g)) {
    return NULL;
  }
  part = room (length);
  memcpy (part, columns, 32);
  for (i = 0; i < n; ++i) {
    for (j = 0; j < 64; ++j) {
      part[32 + 64 * i + j] = columns[32 + j * n + i];
    }
  }
  for (i = 0; i < g; ++i) {
    for (j = 0; j < 40; ++j) {
      part[32 + 64 * n + 40 * i + j] = columns[32 + 64 * n + j * g + i];
    }
  }
  return part;
}

/* A part, or a column file: where that fails is found by its rows. */
static void
judge_part (const arguments * a, const input * in, const input * table,
            verdict * v)
{
  const vejgodat_fault wrong =
    { 0, VEJGODAT_PART, VEJGODAT_FAULT_HEADER, 0, 0 };
  frame               f = frame_of (a, in, table);
  uint8_t            *rows;

  v->fault = wrong;
  if (f.refusal != VEJGODAT_OK) {
    v->words = in->length < 32 ? vejgodat_header_text (VEJGODAT_HEADER_SHORT)
      : "header fits no table";
    close_frame (&f);
    return;
  }
  v->header = vejgodat_part_header (in->bytes, in->length, f.table.bytes,
                                    f.table.length, f.rank);
  if (v->kind == PART) {
    v->fault = vejgodat_part_fault (in->bytes, in->length, f.table.bytes,
                                    f.table.length, f.rank);
  }
  /* a sound file is refused for want of a buffer only */
  else if (vejgodat_columns_to_part (in->bytes, in->length, f.table.bytes,
                                     f.table.length, f.rank, NULL, 0).refusal
           == VEJGODAT_BUFFER) {
    v->fault = refused (VEJGODAT_OK);
  }
  else if ((rows = rows_of (in->bytes, in->length)) != NULL) {
    v->fault = vejgodat_part_fault (rows, in->length, f.table.bytes,
                                    f.table.length, f.rank);
    free (rows);
  }
  close_frame (&f);
}

/* A table that may be text. */
static vejgodat_fault
table_fault (const input * in, const char **words)
{
  input               table;
  vejgodat_fault      fault = refused (VEJGODAT_TABLE);

  if (!is_text (in->bytes, in->length)) {
    return vejgodat_table_fault (in->bytes, in->length);
  }
  *words = read_table (in, &table);
  if (*words == NULL) {
    fault = vejgodat_table_fault (table.bytes, table.length);
    close_input (&table);
  }
  return fault;
}

static void
judge_as (const arguments * a, const input * in, const input * table,
          verdict * v)
{
  v->words = NULL;
  memset (&v->header, 0, sizeof v->header);
  switch (v->kind) {
  case MESH:
    v->fault = vejgodat_mesh_fault (in->bytes, in->length);
    v->header = vejgodat_mesh_header (in->bytes, in->length);
    break;
  case PART:
  case COLUMNS:
    judge_part (a, in, table, v);
    break;
  case MESSAGE:
    v->fault = refused (vejgodat_check_message (in->bytes, in->length));
    break;
  case AREA:
    v->fault = refused (vejgodat_progress_of (in->bytes, in->length).refusal);
    break;
  default:
    v->fault = table_fault (in, &v->words);
  }
}

/* Whether the first record stands as columns do: its number is the header's first tree. */
static int
looks_like_columns (const uint8_t * bytes)
{
  const size_t        n = vejgodat_part_trees (bytes);
  uint32_t            i, number = 0;

  if (n == 0 || vejgodat_number_at (bytes + 32) == vejgodat_part_first (bytes)) {
    return 0;
  }
  for (i = 0; i < 4; ++i) {
    number |= (uint32_t) bytes[32 + i * n] << 8 * i;
  }
  return number == vejgodat_part_first (bytes);
}

/* The kind of an object that is not sound, by its header and length alone. */
static int
kind_by_header (const input * in)
{
  const uint8_t      *b = in->bytes;
  uint32_t            number[8], i;

  if (is_text (b, in->length)) {
    return TABLE;
  }
  for (i = 0; i < 8; ++i) {
    number[i] = in->length < 4 * (i + 1) ? 0 : vejgodat_number_at (b + 4 * i);
  }
  if ((number[0] == 2 || number[0] == 3) && number[1] > 0
      && in->length == VEJGODAT_MESH_BYTES (number[1])) {
    return MESH;
  }
  if ((number[0] == 2 || number[0] == 3)
      && in->length == VEJGODAT_PART_BYTES (number[5], number[6])) {
    return looks_like_columns (b) ? COLUMNS : PART;
  }
  if ((number[1] == 2 || number[1] == 3)
      && in->length == VEJGODAT_MESSAGE_BYTES (number[6], number[7])) {
    return MESSAGE;
  }
  if ((number[1] == 2 || number[1] == 3) && number[4] < number[3]
      && in->length >= VEJGODAT_AREA_BYTES (number[3], number[5],
                                            number[1] == 2 ? 4 : 6)) {
    return AREA;
  }
  return in->length % 8 == 0 && in->length >= 16 && number[0] == 0
    && number[1] == 0 ? TABLE : KINDS;
}

int
is_sound (const verdict * v)
{
  return v->kind != KINDS && v->fault.refusal == VEJGODAT_OK
    && v->fault.fault == VEJGODAT_OK;
}

verdict
judge (const arguments * a, const input * in, const input * table)
{
  verdict             v;

  memset (&v, 0, sizeof v);
  v.by = "contents";
  v.kind = kind_given (a);
  if (v.kind != KINDS) {
    v.by = "option";
    judge_as (a, in, table, &v);
  }
  else {
    for (v.kind = 0; v.kind < KINDS; ++v.kind) {
      judge_as (a, in, table, &v);
      if (is_sound (&v)) {
        break;
      }
    }
    if (v.kind == KINDS) {
      v.by = is_text (in->bytes, in->length) ? "contents" : "header";
      v.kind = kind_by_header (in);
      if (v.kind != KINDS) {
        judge_as (a, in, table, &v);
      }
    }
  }
  v.own = table == NULL && (v.kind == PART || v.kind == COLUMNS);
  v.text = v.kind == TABLE && is_text (in->bytes, in->length);
  return v;
}

void
write_verdict (const verdict * v, char *text, size_t text_len)
{
  if (v->kind == KINDS) {
    snprintf (text, text_len, "sound as no kind, and header and length fit"
              " none; --as KIND says where it fails as one");
  }
  else if (is_sound (v)) {
    snprintf (text, text_len, "sound");
  }
  else if (v->words != NULL) {
    snprintf (text, text_len, "%s", v->words);
  }
  else if (v->fault.kind != VEJGODAT_FAULT_HEADER
           || v->header.field == VEJGODAT_HEADER_NONE) {
    vejgodat_write_fault (v->fault, text, text_len);
  }
  else if (v->header.field == VEJGODAT_HEADER_DIMENSION
           || (v->kind == MESH && v->header.field == VEJGODAT_HEADER_TREES)) {
    /* no single number is due */
    snprintf (text, text_len, "%s: %" PRIu64,
              vejgodat_header_text (v->header.field), v->header.found);
  }
  else {
    snprintf (text, text_len, "%s: %" PRIu64 " where %" PRIu64 " is due",
              vejgodat_header_text (v->header.field), v->header.found,
              v->header.due);
  }
}

int
complain_as (const arguments * a, int kind, const input * in,
             const input * table, uint32_t refusal)
{
  arguments           as = *a;
  verdict             v;
  char                words[200];

  as.value[OPT_AS] = kind_names[kind];
  v = judge (&as, in, table);
  if (is_sound (&v)) {
    return complain_refusal (in->name, refusal);
  }
  write_verdict (&v, words, sizeof words);
  return complain (in->name, words);
}
