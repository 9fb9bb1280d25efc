#define _POSIX_C_SOURCE 200809L
#include "store.h"

#include <dirent.h>
#include <errno.h>
#include <inttypes.h>
#include <stdio.h>
#include <stdlib.h>
#include <string.h>

#define MOST_STEPS 99999999

manifest
new_manifest (uint32_t ranks)
{
  manifest            it;

  it.release = vejgodat_version ();
  it.columns = 0;
  it.dimension = it.epoch = 0;
  it.ranks = ranks;
  it.table = room (VEJGODAT_TABLE_BYTES (ranks));
  it.prints = room (ranks * sizeof *it.prints);
  return it;
}

void
free_manifest (manifest * it)
{
  free (it->prints);
  free (it->table);
}

static void
step_name (uint32_t step, char name[32])
{
  snprintf (name, 32, "step-%08u", (unsigned) step);
}

/* The text of a manifest, from malloc: nothing in it but the state, and at its end the fingerprint of all before. */
static char        *
write_manifest (const manifest * it, size_t *length)
{
  const size_t        size = 400 + 110 * (size_t) it->ranks;
  char               *text = room (size);
  print               seal;
  uint32_t            p;
  size_t              at;

  at = (size_t) snprintf (text, size,
                          "vejgodat checkpoint\nrelease %u\nparts %s\n"
                          "dimension %u\ntrees %" PRId64
                          "\nranks %u\nepoch %u\n", (unsigned) it->release,
                          it->columns ? "columns" : "rows",
                          (unsigned) it->dimension, it->table[it->ranks],
                          (unsigned) it->ranks, (unsigned) it->epoch);
  for (p = 0; p < it->ranks; ++p) {
    at += (size_t) snprintf (text + at, size - at,
                             "rank %u %" PRId64 " %s\n", (unsigned) p,
                             it->table[p], it->prints[p]);
  }
  fingerprint ((const uint8_t *) text, at, seal);
  *length =
    at + (size_t) snprintf (text + at, size - at, "sha256 %s\n", seal);
  return text;
}

int
store_manifest (const char *folder, const manifest * it)
{
  char                name[32];
  size_t              length;
  char               *text;
  int                 well;

  if (it->epoch > MOST_STEPS) {
    return complain (folder, "no step above %d can be stored", MOST_STEPS);
  }
  text = write_manifest (it, &length);
  step_name (it->epoch, name);
  well = write_file (folder, name, (const uint8_t *) text, length);
  free (text);
  return well;
}

int
load_manifest (const char *folder, uint32_t step, uint8_t ** text,
               size_t *length)
{
  char                name[32];
  char               *path;

  step_name (step, name);
  path = path_of (folder, name, "");
  *text = read_file (path, length);
  if (*text == NULL) {
    complain (path, "%s", strerror (errno));
  }
  free (path);
  return *text != NULL;
}

/* Read a word and the number after it. */
static int
number (const char **at, const char *word, int64_t least, int64_t most,
        int64_t * value)
{
  const size_t        length = strlen (word);
  char               *end;

  if (strncmp (*at, word, length) != 0) {
    return 0;
  }
  *value = strtoll (*at + length, &end, 10);
  if (end == *at + length || *value < least || *value > most) {
    return 0;
  }
  *at = end;
  return 1;
}

/* The numbers before the ranks. */
static int
read_head (const char **at, manifest * it)
{
  int64_t             release, dimension, trees, ranks, epoch;
  int                 columns;

  if (!number (at, "vejgodat checkpoint\nrelease ", 0, UINT32_MAX, &release)) {
    return 0;
  }
  columns = strncmp (*at, "\nparts columns", 14) == 0;
  *at += columns ? 14 : strncmp (*at, "\nparts rows", 11) == 0 ? 11 : 0;
  if (!number (at, "\ndimension ", 2, 3, &dimension)
      || !number (at, "\ntrees ", 1, VEJGODAT_MAX_TREES, &trees)
      || !number (at, "\nranks ", 1, VEJGODAT_MAX_RANKS, &ranks)
      || !number (at, "\nepoch ", 0, MOST_STEPS, &epoch)) {
    return 0;
  }
  *it = new_manifest ((uint32_t) ranks);
  it->release = (uint32_t) release;
  it->columns = columns;
  it->dimension = (uint32_t) dimension;
  it->epoch = (uint32_t) epoch;
  it->table[ranks] = trees;
  return 1;
}

/* The line of each rank. */
static int
read_ranks (const char **at, manifest * it)
{
  uint32_t            p;
  int64_t             rank;

  for (p = 0; p < it->ranks; ++p) {
    if (!number (at, "\nrank ", p, p, &rank)
        || !number (at, " ", INT64_MIN, INT64_MAX, &it->table[p])
        || strspn (*at, " ") != 1
        || strspn (*at + 1, "0123456789abcdef") != sizeof (print) - 1) {
      return 0;
    }
    memcpy (it->prints[p], *at + 1, sizeof (print) - 1);
    it->prints[p][sizeof (print) - 1] = '\0';
    *at += sizeof (print);
  }
  return 1;
}

/* What was read is all that the text says: written again it gives the same bytes, the fingerprint at the end included. */
static int
is_whole (const manifest * it, const uint8_t * text, size_t length)
{
  size_t              due;
  char               *again = write_manifest (it, &due);
  const int           same = due == length && memcmp (again, text, due) == 0;

  free (again);
  return same;
}

static int
check_manifest (const char *path, const manifest * it, uint32_t step)
{
  vejgodat_fault      fault;
  char                text[200];

  if (it->epoch != step) {
    return complain (path, "manifest of step %u", (unsigned) it->epoch);
  }
  if (it->release / 100 > vejgodat_version () / 100) {
    return complain (path, "written by release %u, this is %u",
                     (unsigned) it->release, (unsigned) vejgodat_version ());
  }
  fault = vejgodat_table_fault ((const uint8_t *) it->table,
                                VEJGODAT_TABLE_BYTES (it->ranks));
  if (fault.refusal != VEJGODAT_OK || fault.fault != VEJGODAT_OK) {
    vejgodat_write_fault (fault, text, sizeof text);
    return complain (path, "table: %s", text);
  }
  return 1;
}

int
read_manifest (const char *folder, uint32_t step, const uint8_t * text,
               size_t length, manifest * it)
{
  char                name[32];
  const char         *at = (const char *) text;
  char               *path;
  int                 well;

  step_name (step, name);
  path = path_of (folder, name, "");
  if (!read_head (&at, it)) {
    well = complain (path, "no manifest, or one cut short, at byte %lu",
                     (unsigned long) (at - (const char *) text));
  }
  else {
    well = !read_ranks (&at, it) || !is_whole (it, text, length)
      ? complain (path, "manifest cut short or changed, read up to byte %lu"
                  " of %lu", (unsigned long) (at - (const char *) text),
                  (unsigned long) length)
      : check_manifest (path, it, step);
    if (!well) {
      free_manifest (it);
    }
  }
  free (path);
  return well;
}

int
last_step (const char *folder, int64_t * step)
{
  DIR                *all = opendir (folder);
  struct dirent      *entry;
  char                name[32];
  unsigned            found;

  if (all == NULL) {
    return complain (folder, "%s", strerror (errno));
  }
  *step = -1;
  while ((entry = readdir (all)) != NULL) {
    if (sscanf (entry->d_name, "step-%8u", &found) == 1) {
      step_name (found, name);
      if (strcmp (name, entry->d_name) == 0 && found > *step) {
        *step = found;
      }
    }
  }
  closedir (all);
  return 1;
}
