/* A folder with the part of each rank. */
#include "cli.h"

#include <dirent.h>
#include <errno.h>
#include <stdlib.h>
#include <string.h>
#include <sys/stat.h>

void
close_folder (folder * f)
{
  uint32_t            rank;

  for (rank = 0; f->paths != NULL && rank < f->ranks; ++rank) {
    free (f->paths[rank]);
  }
  free (f->paths);
  free (f->first);
  free (f->count);
  memset (f, 0, sizeof *f);
}

static int
complain_two (const char *path, const char *words, const char *other)
{
  char               *text = room (strlen (words) + strlen (other) + 1);

  sprintf (text, "%s%s", words, other);
  complain (path, text);
  free (text);
  return 1;
}

/* The first part tells how many there are. */
static void
make_room (folder * f, const uint8_t * part)
{
  uint32_t            rank;

  f->ranks = vejgodat_part_ranks (part);
  f->trees = vejgodat_part_K (part);
  f->dimension = vejgodat_part_dimension (part);
  f->paths = room (sizeof *f->paths * f->ranks);
  f->first = room (sizeof *f->first * f->ranks);
  f->count = room (sizeof *f->count * f->ranks);
  for (rank = 0; rank < f->ranks; ++rank) {
    f->paths[rank] = NULL;
  }
}

/* Put a sound part into its place. */
static int
add_part (folder * f, const char *path, const uint8_t * part)
{
  const uint32_t      rank = vejgodat_part_rank (part);

  if (f->paths == NULL) {
    make_room (f, part);
  }
  if (vejgodat_part_ranks (part) != f->ranks
      || vejgodat_part_K (part) != f->trees
      || vejgodat_part_dimension (part) != f->dimension) {
    return complain (path, "its dimension, K or P isn't that of the parts"
                     " before it");
  }
  if (f->paths[rank] != NULL) {
    return complain_two (path, "has the same rank as ", f->paths[rank]);
  }
  f->paths[rank] = room (strlen (path) + 1);
  strcpy (f->paths[rank], path);
  f->first[rank] = vejgodat_part_first (part);
  f->count[rank] = vejgodat_part_trees (part);
  return 0;
}

/* Files that aren't parts by header and length are passed over. */
static int
add_file (folder * f, const char *path)
{
  static const command alone = { "", "", "", "", 0, 0, 0, NULL };
  arguments           none;
  input               in;
  verdict             v;
  struct stat         about;
  char                words[200];
  int                 status;

  if (stat (path, &about) != 0) {
    return complain (path, strerror (errno));
  }
  if (!S_ISREG (about.st_mode) || about.st_size == 0) {
    return 0;
  }
  if (take_input (&in, path) != 0) {
    return 1;
  }
  memset (&none, 0, sizeof none);
  none.command = &alone;
  v = judge (&none, &in, NULL);
  write_verdict (&v, words, sizeof words);
  status = v.kind != PART ? 0 : is_sound (&v) ? add_part (f, path, in.bytes)
    : complain (path, words);
  close_input (&in);
  return status;
}

static int
all_there (const folder * f, const char *name)
{
  char                words[64];
  uint32_t            rank;

  if (f->paths == NULL) {
    return complain (name, "holds no part");
  }
  for (rank = 0; rank < f->ranks; ++rank) {
    if (f->paths[rank] == NULL) {
      sprintf (words, "the part of rank %" PRIu32 " of %" PRIu32
               " is missing", rank, f->ranks);
      return complain (name, words);
    }
  }
  return 0;
}

int
take_folder (folder * f, const char *name)
{
  struct dirent     **entries;
  progress            p = progress_of ("reading file");
  const int           count = scandir (name, &entries, NULL, alphasort);
  char               *path;
  int                 i, status = 0;

  memset (f, 0, sizeof *f);
  if (count < 0) {
    return complain (name, strerror (errno));
  }
  for (i = 0; i < count; ++i) {
    if (status == 0) {
      progress_at (&p, (uint64_t) i + 1, (uint64_t) count);
      path = room (strlen (name) + strlen (entries[i]->d_name) + 2);
      sprintf (path, "%s/%s", name, entries[i]->d_name);
      status = add_file (f, path);
      free (path);
    }
    free (entries[i]);
  }
  free (entries);
  progress_end (&p);
  if (status == 0) {
    status = all_there (f, name);
  }
  if (status != 0) {
    close_folder (f);
  }
  return status;
}
