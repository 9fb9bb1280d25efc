/* vejgodat diff: the first record and field in which two files differ. */
#include "cli.h"

#include <stdlib.h>
#include <string.h>

/* One of the two files, a column file by its rows and a text by its table. */
typedef struct
{
  input               in;
  verdict             v;
  uint8_t            *rows;
  const uint8_t      *bytes;
  size_t              length;
}
side;

static int
open_side (const arguments * a, side * s, const char *name,
           const input * table)
{
  input               made;

  memset (s, 0, sizeof *s);
  if (take_input (&s->in, name) != 0) {
    return 1;
  }
  s->v = judge (a, &s->in, table);
  if (s->v.text && read_table (&s->in, &made) == NULL) {
    close_input (&s->in);
    s->in = made;
    s->v.text = 0;
  }
  if (s->v.kind == COLUMNS) {
    s->rows = rows_of (s->in.bytes, s->in.length);
  }
  s->bytes = s->rows != NULL ? s->rows : s->in.bytes;
  s->length = s->in.length;
  return 0;
}

static void
close_side (side * s)
{
  free (s->rows);
  close_input (&s->in);
}

/* A number of 1, 2, 4 or 8 bytes, as far as the file goes; entries of tables have a sign. */
static int64_t
number_at (const side * s, size_t begins, size_t wide)
{
  uint64_t            number = 0;
  size_t              i;

  for (i = 0; i < wide && begins + i < s->length; ++i) {
    number |= (uint64_t) s->bytes[begins + i] << 8 * i;
  }
  return (int64_t) number;
}

static void
write_difference (writer * w, const side * one, const side * other,
                  int kind, size_t at)
{
  char                name[120];
  size_t              begins, wide;

  name_place (kind, one->bytes, one->length, at, name, sizeof name,
              &begins, &wide);
  if (w->json) {
    put_number (w, "byte", at);
    put_text (w, "place", name);
    begin (w, "values", '[');
    printf ("%" PRId64 ", %" PRId64, number_at (one, begins, wide),
            number_at (other, begins, wide));
    end (w, ']');
  }
  else {
    printf ("%s: %" PRId64 " and %" PRId64 "\n", name,
            number_at (one, begins, wide), number_at (other, begins, wide));
  }
}

/* The kind by which places are named: that of both, or of the one that has any. */
static int
common_kind (const side * one, const side * other)
{
  const int           kind = one->v.kind == KINDS ? other->v.kind
    : one->v.kind;

  if ((one->v.kind == COLUMNS && one->rows == NULL)
      || (other->v.kind == COLUMNS && other->rows == NULL)
      || one->v.text || other->v.text) {
    return KINDS;
  }
  return kind == COLUMNS ? PART : kind;
}

static int
write_diff (const arguments * a, const side * one, const side * other)
{
  writer              w = { a->value[OPT_JSON] != NULL, 0, 1 };
  const size_t        shorter = one->length < other->length
    ? one->length : other->length;
  const int           kinds = one->v.kind != KINDS && other->v.kind != KINDS
    && one->v.kind != other->v.kind;
  size_t              at = 0;
  int                 same;

  while (at < shorter && one->bytes[at] == other->bytes[at]) {
    ++at;
  }
  same = !kinds && at == shorter && one->length == other->length;
  if (w.json) {
    begin (&w, NULL, '{');
    put_flag (&w, "same", same);
    put_text (&w, "kind", kind_names[one->v.kind]);
    put_text (&w, "other_kind", kind_names[other->v.kind]);
  }
  else if (kinds) {
    printf ("kind: %s and %s\n", kind_names[one->v.kind],
            kind_names[other->v.kind]);
  }
  if (!kinds && at < shorter) {
    write_difference (&w, one, other, common_kind (one, other), at);
  }
  if (one->length != other->length) {
    if (w.json) {
      begin (&w, "lengths", '[');
      put_number (&w, NULL, one->length);
      put_number (&w, NULL, other->length);
      end (&w, ']');
    }
    else {
      printf ("length: %lu and %lu bytes\n", (unsigned long) one->length,
              (unsigned long) other->length);
    }
  }
  if (w.json) {
    end (&w, '}');
    finish (&w);
  }
  return !same;
}

static int
run (const arguments * a)
{
  input               table;
  const input        *given;
  side                one, other;
  int                 status = 1;

  if (table_given (a, &table, &given) != 0) {
    return 1;
  }
  if (open_side (a, &one, a->names[0], given) == 0) {
    if (open_side (a, &other, a->names[1], given) == 0) {
      status = write_diff (a, &one, &other);
      close_side (&other);
    }
    close_side (&one);
  }
  close_input (&table);
  return status;
}

const command       command_diff = {
  "diff", "A B [--as KIND] [--table TABLE [--rank R]] [--json]",
  "say where two files differ first",
  "Writes the first record and field that differ, with both values, and nothing\n"
    "where the files are the same, which has status 0. Of files of two kinds it\n"
    "names the kinds.\n",
  TAKES (OPT_JSON) | TAKES (OPT_TABLE) | TAKES (OPT_RANK) | TAKES (OPT_AS),
  2, 2, run
};
