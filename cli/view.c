/* The records of a mesh, a part, a message or an area, as far as its bytes reach: sound or not. */
#include "cli.h"

#include <string.h>

/* How many records of a size fit from a byte on, of those that a header promises. */
static uint32_t
that_fit (uint32_t promised, size_t from, size_t length, size_t size)
{
  const size_t        fit = from < length ? (length - from) / size : 0;

  return fit < promised ? (uint32_t) fit : promised;
}

int
look (view * v, int kind, const uint8_t * bytes, size_t length)
{
  const size_t        header = kind == MESH ? 8 : 32;
  uint32_t            trees, ghosts, ranks;

  memset (v, 0, sizeof *v);
  v->kind = kind;
  v->bytes = bytes;
  v->length = length;
  if (length < header) {
    return 0;
  }
  v->dimension =
    vejgodat_number_at (bytes + (kind == MESH || kind == PART ? 0 : 4));
  trees = vejgodat_number_at (bytes + (kind == MESH ? 4 : kind == MESSAGE ? 24
                                       : 20));
  ghosts = kind == MESH ? 0
    : vejgodat_number_at (bytes + (kind == MESSAGE ? 28 : 24));
  v->trees_at = header;
  if (kind == AREA) {
    ranks = vejgodat_number_at (bytes + 12);
    v->trees_at = 48 + 16 * (size_t) ranks + 8 * VEJGODAT_HEARD_WORDS (ranks);
  }
  v->ghosts_at = v->trees_at + 64 * (size_t) trees;
  v->trees = that_fit (trees, v->trees_at, length, 64);
  v->ghosts = that_fit (ghosts, v->ghosts_at, length, 40);
  return 1;
}

const uint8_t      *
record_at (const view * v, uint32_t index)
{
  if (index < v->trees) {
    return v->bytes + v->trees_at + 64 * (size_t) index;
  }
  index -= v->trees;
  return index < v->ghosts ? v->bytes + v->ghosts_at + 40 * (size_t) index
    : NULL;
}

int
record_with (const view * v, uint32_t number, uint32_t * index)
{
  const uint8_t      *record;
  static const uint8_t zero[64];

  for (*index = 0; (record = record_at (v, *index)) != NULL; ++*index) {
    /* a slot of an area may wait for its tree */
    if (vejgodat_number_at (record) == number
        && !(v->kind == AREA && *index < v->trees
             && memcmp (record, zero, 64) == 0)) {
      return 1;
    }
  }
  return 0;
}

enum
{
  TO_BOUNDARY, TO_UNUSED, TO_TREE, TO_GHOST, TO_NOTHING
};

static const char  *const across_names[] =
  { "boundary", "unused", "tree", "ghost", "nothing" };

/* What is across a face, with the global number of the neighbour; of a neighbour that a part doesn't hold, its local
 * index. */
static int
across (const view * v, uint32_t index, uint32_t face, uint32_t * number)
{
  const uint8_t      *record = record_at (v, index), *other;
  const int           local = v->kind == PART && index < v->trees;
  const uint32_t      own = local ? index : vejgodat_number_at (record);
  int                 what;

  *number = vejgodat_number_at (record + 8 + 4 * (size_t) face);
  if (*number == VEJGODAT_UNUSED) {
    return TO_UNUSED;
  }
  if (*number == own && record[32 + face] == face) {
    return TO_BOUNDARY;
  }
  if (!local) {
    return TO_TREE;
  }
  other = record_at (v, *number);
  if (other == NULL) {
    return TO_NOTHING;
  }
  what = *number < v->trees ? TO_TREE : TO_GHOST;
  *number = vejgodat_number_at (other);
  return what;
}

static void
write_face (writer * w, const view * v, uint32_t index, uint32_t face)
{
  const uint8_t      *record = record_at (v, index);
  const uint32_t      faces = v->dimension == 2 ? 4 : 6;
  const uint32_t      meets = record[32 + face] % faces;
  const uint32_t      turned = record[32 + face] / faces;
  uint32_t            number;
  const int           what = across (v, index, face, &number);
  const int           linked = what != TO_UNUSED && what != TO_BOUNDARY;

  if (w->json) {
    begin (w, NULL, '{');
    put_number (w, "face", face);
    put_text (w, "across", across_names[what]);
    if (linked) {
      put_number (w, "number", number);
      put_number (w, "neighbour_face", meets);
      put_number (w, "orientation", turned);
    }
    end (w, '}');
  }
  else if (!linked) {
    printf ("  face %" PRIu32 ": %s\n", face, across_names[what]);
  }
  else if (what == TO_NOTHING) {
    printf ("  face %" PRIu32 ": local index %" PRIu32 ", which the part"
            " doesn't hold\n", face, number);
  }
  else {
    printf ("  face %" PRIu32 ": face %" PRIu32 " of %s %" PRIu32
            ", orientation %" PRIu32 "\n", face, meets, across_names[what],
            number, turned);
  }
}

void
write_record (writer * w, const view * v, uint32_t index)
{
  const uint8_t      *record = record_at (v, index);
  const int           ghost = index >= v->trees;
  const char         *shape = record[4] < 6 ? shape_names[record[4]]
    : "no shape";
  char                data[49] = "";
  uint32_t            i;

  if (w->json) {
    put_text (w, "held", ghost ? "ghost" : "tree");
    put_number (w, "number", vejgodat_number_at (record));
    put_number (w, "record", index);
    put_text (w, "shape", shape);
    put_number (w, "region", vejgodat_region_at (record));
    begin (w, "faces", '[');
  }
  else {
    printf ("%s %" PRIu32 ": record %" PRIu32 ", %s, region %" PRIu32 "\n",
            ghost ? "ghost" : "tree", vejgodat_number_at (record), index,
            shape, vejgodat_region_at (record));
  }
  for (i = 0; i < 6; ++i) {
    write_face (w, v, index, i);
  }
  for (i = 0; i < 24 && !ghost; ++i) {
    sprintf (data + 2 * i, "%02x", record[40 + i]);
  }
  if (w->json) {
    end (w, ']');
    put_text (w, "data", data);
  }
  else if (!ghost) {
    printf ("  data: %s\n", data);
  }
}

/* A field of a record, at a byte of it. */
static void
name_field (size_t at, char *name, size_t name_len, size_t *begins,
            size_t *wide)
{
  static const struct
  {
    size_t              from, to, wide;
    const char         *name;
  }
  fields[] = {
    {0, 4, 4, "number"}, {4, 5, 1, "shape"}, {5, 8, 1, "zero byte"},
    {8, 32, 4, "neighbour at face"}, {32, 38, 1, "code at face"},
    {38, 40, 2, "region"}, {40, 64, 1, "data byte"}
  };
  size_t              i = 0, place;

  while (at >= fields[i].to) {
    ++i;
  }
  place = (at - fields[i].from) / fields[i].wide;
  *wide = fields[i].wide;
  *begins = fields[i].from + place * fields[i].wide;
  if (fields[i].to - fields[i].from > fields[i].wide) {
    snprintf (name, name_len, "%s %lu", fields[i].name,
              (unsigned long) place);
  }
  else {
    snprintf (name, name_len, "%s", fields[i].name);
  }
}

/* A number of a header, or of what an area has between header and slots. */
static void
name_number (int kind, const uint8_t * bytes, size_t at, char *name,
             size_t name_len, size_t *begins, size_t *wide)
{
  static const char  *const names[KINDS][8] = {
    {"dimension", "K"},
    {"dimension", "K", "P", "rank", "first tree", "trees", "ghosts", "zero"},
    {NULL},
    {"epoch", "dimension", "K", "P", "sender", "receiver", "trees", "ghosts"},
    {"epoch", "dimension", "K", "P", "rank", "trees", "ghosts", "zero"},
    {NULL}
  };
  size_t              entries, place;

  if (kind != TABLE && at < 32) {
    *wide = 4;
    *begins = at / 4 * 4;
    snprintf (name, name_len, "header, %s", names[kind][at / 4]);
    return;
  }
  *wide = 8;
  *begins = at / 8 * 8;
  if (kind == TABLE) {
    snprintf (name, name_len, "entry %lu", (unsigned long) (at / 8));
    return;
  }
  entries = (size_t) vejgodat_number_at (bytes + 12) + 1;
  place = (at - 32) / 8;
  snprintf (name, name_len, "%s %lu",
            place < entries ? "old table, entry"
            : place < 2 * entries ? "new table, entry"
            : "senders heard, word", (unsigned long) (place < entries ? place
                                                      : place < 2 * entries
                                                      ? place - entries
                                                      : place - 2 * entries));
}

void
name_place (int kind, const uint8_t * bytes, size_t length, size_t at,
            char *name, size_t name_len, size_t *begins, size_t *wide)
{
  view                v;
  char                field[40];
  size_t              index, record;

  if (kind == TABLE || (kind != KINDS && look (&v, kind, bytes, length)
                        && at < v.trees_at)) {
    name_number (kind, bytes, at, name, name_len, begins, wide);
    return;
  }
  if (kind == KINDS || at >= v.ghosts_at + 40 * (size_t) v.ghosts
      || (at < v.ghosts_at && at >= v.trees_at + 64 * (size_t) v.trees)) {
    snprintf (name, name_len, "byte %lu", (unsigned long) at);
    *begins = at;
    *wide = 1;
    return;
  }
  index = at < v.ghosts_at ? (at - v.trees_at) / 64
    : v.trees + (at - v.ghosts_at) / 40;
  record = (size_t) (record_at (&v, (uint32_t) index) - bytes);
  name_field (at - record, field, sizeof field, begins, wide);
  *begins += record;
  snprintf (name, name_len, "record %lu, number %" PRIu32 ": %s",
            (unsigned long) index, vejgodat_number_at (bytes + record),
            field);
}
