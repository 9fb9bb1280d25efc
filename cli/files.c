/* Reading files where they lie, and writing new ones whole. */
#include "cli.h"

#include <errno.h>
#include <fcntl.h>
#include <stdlib.h>
#include <string.h>
#include <sys/mman.h>
#include <sys/stat.h>
#include <unistd.h>

/* the most that is read from what can't be mapped; the longest area has 319 million bytes */
#define MOST_BYTES ((size_t) 1 << 29)

void               *
room (size_t bytes)
{
  void               *at = malloc (bytes > 0 ? bytes : 1);

  if (at == NULL) {
    fprintf (stderr, "vejgodat: no memory for %lu bytes\n",
             (unsigned long) bytes);
    exit (1);
  }
  return at;
}

int
complain (const char *name, const char *words)
{
  fflush (stdout);
  fprintf (stderr, "vejgodat: %s: %s\n", name, words);
  return 1;
}

int
complain_refusal (const char *name, uint32_t refusal)
{
  return complain (name, vejgodat_refusal_text (refusal));
}

int
complain_fault (const char *name, vejgodat_fault fault)
{
  char                words[200];

  vejgodat_write_fault (fault, words, sizeof words);
  return complain (name, words);
}

/* Read a pipe or a device to its end. */
static const char  *
read_all (int file, input * in)
{
  size_t              size = 65536, used = 0;
  uint8_t            *bytes = room (size), *more;
  ssize_t             got;

  while ((got = read (file, bytes + used, size - used)) != 0) {
    if (got < 0 && errno == EINTR) {
      continue;
    }
    if (got < 0) {
      free (bytes);
      return strerror (errno);
    }
    used += (size_t) got;
    if (used == size) {
      more = size < MOST_BYTES ? realloc (bytes, 2 * size) : NULL;
      if (more == NULL) {
        free (bytes);
        return "longer than any object, or no memory for it";
      }
      bytes = more;
      size *= 2;
    }
  }
  in->bytes = in->memory = bytes;
  in->length = used;
  return NULL;
}

static const char  *
map_file (int file, input * in)
{
  struct stat         about;
  void               *at;

  if (fstat (file, &about) != 0) {
    return strerror (errno);
  }
  if (S_ISDIR (about.st_mode)) {
    return strerror (EISDIR);
  }
  /* some files, as those of /proc, don't tell their length, and standard input may be read in part already */
  if (!S_ISREG (about.st_mode) || about.st_size == 0
      || lseek (file, 0, SEEK_CUR) != 0) {
    return read_all (file, in);
  }
  at = mmap (NULL, (size_t) about.st_size, PROT_READ, MAP_PRIVATE, file, 0);
  if (at == MAP_FAILED) {
    return strerror (errno);
  }
  in->bytes = in->memory = at;
  in->length = (size_t) about.st_size;
  in->mapped = 1;
  return NULL;
}

const char         *
open_input (input * in, const char *name)
{
  const int           standard = strcmp (name, "-") == 0;
  const int           file = standard ? 0 : open (name, O_RDONLY);
  const char         *words;

  memset (in, 0, sizeof *in);
  in->name = standard ? "standard input" : name;
  if (file < 0) {
    return strerror (errno);
  }
  words = map_file (file, in);
  if (!standard) {
    close (file);
  }
  if (words == NULL && in->length == 0) {
    close_input (in);
    words = "the file is empty";
  }
  return words;
}

int
take_input (input * in, const char *name)
{
  const char         *words = open_input (in, name);

  return words == NULL ? 0 : complain (in->name, words);
}

void
close_input (input * in)
{
  if (in->mapped) {
    munmap (in->memory, in->length);
  }
  else {
    free (in->memory);
  }
  in->memory = NULL;
  in->bytes = NULL;
  in->length = 0;
  in->mapped = 0;
}

static int
put_all (int file, const uint8_t * bytes, size_t length)
{
  ssize_t             put;

  while (length > 0) {
    put = write (file, bytes, length);
    if (put < 0 && errno == EINTR) {
      continue;
    }
    if (put < 0) {
      return 0;
    }
    bytes += put;
    length -= (size_t) put;
  }
  return 1;
}

/* Write what isn't a regular file, as a pipe or a device, in its place. */
static int
write_there (const char *name, const void *bytes, size_t length)
{
  const int           file = open (name, O_WRONLY);
  int                 done;

  if (file < 0) {
    return 0;
  }
  done = put_all (file, bytes, length);
  return close (file) == 0 && done;
}

/* Write a file beside and give it the name, so that a file that is mapped here stays and nobody sees half of one. */
static int
write_new (const char *name, const void *bytes, size_t length, mode_t mode)
{
  char               *beside = room (strlen (name) + 8);
  int                 file, done, why;

  sprintf (beside, "%s.XXXXXX", name);
  file = mkstemp (beside);
  done = file >= 0 && put_all (file, bytes, length)
    && fchmod (file, mode) == 0;
  why = errno;
  if (file >= 0) {
    if (close (file) != 0 && done) {
      why = errno;
      done = 0;
    }
    if (done && rename (beside, name) != 0) {
      why = errno;
      done = 0;
    }
    if (!done) {
      unlink (beside);
    }
  }
  free (beside);
  errno = why;
  return done;
}

int
write_output (const char *name, const void *bytes, size_t length)
{
  struct stat         about;
  char               *path;
  mode_t              mask;
  int                 there, done;

  if (name == NULL || strcmp (name, "-") == 0) {
    return put_all (1, bytes, length) ? 0
      : complain ("standard output", strerror (errno));
  }
  there = stat (name, &about) == 0;
  if (there && !S_ISREG (about.st_mode)) {
    return write_there (name, bytes, length) ? 0
      : complain (name, strerror (errno));
  }
  mask = umask (0);
  umask (mask);
  path = there ? realpath (name, NULL) : NULL;
  done = write_new (path == NULL ? name : path, bytes, length,
                    there ? about.st_mode & 0777 : 0666 & ~mask);
  free (path);
  return done ? 0 : complain (name, strerror (errno));
}

int
deliver_output (const arguments * a, const void *bytes, size_t length)
{
  const char         *name = a->value[OPT_OUT];
  const int           standard = name == NULL || strcmp (name, "-") == 0;
  writer              w = { 1, 0, 1 };

  if (standard && a->value[OPT_JSON] != NULL) {
    bad_usage (a->command, "--json needs the name of a file", "--out");
  }
  if (standard && isatty (1)) {
    bad_usage (a->command, "bytes don't go to a terminal: name a file",
               "--out");
  }
  if (write_output (name, bytes, length) != 0) {
    return 1;
  }
  if (a->value[OPT_JSON] != NULL) {
    begin (&w, NULL, '{');
    put_text (&w, "file", name);
    put_number (&w, "bytes", length);
    end (&w, '}');
    finish (&w);
  }
  return 0;
}
