#define _POSIX_C_SOURCE 200809L
#include "files.h"

#include <errno.h>
#include <fcntl.h>
#include <stdarg.h>
#include <stdio.h>
#include <stdlib.h>
#include <string.h>
#include <sys/stat.h>
#include <unistd.h>

#include <openssl/evp.h>

int
complain (const char *file, const char *format, ...)
{
  char                words[400];
  int                 rank;
  va_list             list;

  va_start (list, format);
  vsnprintf (words, sizeof words, format, list);
  va_end (list);
  MPI_Comm_rank (MPI_COMM_WORLD, &rank);
  fprintf (stderr, "rank %d: %s: %s\n", rank, file, words);
  return 0;
}

int
all_well (int well)
{
  int                 all;

  MPI_Allreduce (&well, &all, 1, MPI_INT, MPI_LAND, MPI_COMM_WORLD);
  return all;
}

char               *
path_of (const char *folder, const char *name, const char *ending)
{
  const size_t        length =
    strlen (folder) + 1 + strlen (name) + strlen (ending) + 1;
  char               *path = room (length);

  snprintf (path, length, "%s/%s%s", folder, name, ending);
  return path;
}

int
sync_folder (const char *folder)
{
  const int           file = open (folder, O_RDONLY | O_DIRECTORY);
  int                 well = file >= 0 && fsync (file) == 0;

  if (!well) {
    complain (folder, "%s", strerror (errno));
  }
  if (file >= 0) {
    close (file);
  }
  return well;
}

int
make_folder (const char *folder)
{
  char               *above = path_of (folder, "..", "");
  int                 well = mkdir (folder, 0777) == 0 || errno == EEXIST;

  if (!well) {
    complain (folder, "%s", strerror (errno));
  }
  well = well && sync_folder (above);
  free (above);
  return well;
}

static int
write_all (int file, const uint8_t * bytes, size_t length)
{
  ssize_t             wrote;

  while (length > 0) {
    wrote = write (file, bytes, length);
    if (wrote < 0 && errno != EINTR) {
      return 0;
    }
    if (wrote > 0) {
      bytes += wrote;
      length -= (size_t) wrote;
    }
  }
  return 1;
}

int
write_file (const char *folder, const char *name, const uint8_t * bytes,
            size_t length)
{
  char               *path = path_of (folder, name, "");
  char               *temporary = path_of (folder, name, ".new");
  const int           file =
    open (temporary, O_WRONLY | O_CREAT | O_TRUNC, 0666);
  int                 well = file >= 0 && write_all (file, bytes, length)
    && fsync (file) == 0;

  well = well && rename (temporary, path) == 0;
  if (!well) {
    complain (temporary, "%s", strerror (errno));
  }
  if (file >= 0) {
    close (file);
  }
  free (temporary);
  free (path);
  return well && sync_folder (folder);
}

uint8_t            *
read_file (const char *path, size_t *length)
{
  const int           file = open (path, O_RDONLY);
  uint8_t            *bytes;
  struct stat         about;
  ssize_t             got = 1;

  if (file < 0) {
    return NULL;
  }
  if (fstat (file, &about) != 0) {
    close (file);
    return NULL;
  }
  bytes = room ((size_t) about.st_size + 1);
  for (*length = 0; *length < (size_t) about.st_size && got > 0;
       *length += (size_t) got) {
    got = read (file, bytes + *length, (size_t) about.st_size - *length);
    if (got < 0) {
      free (bytes);
      close (file);
      return NULL;
    }
  }
  close (file);
  bytes[*length] = '\0';
  return bytes;
}

void
fingerprint (const uint8_t * bytes, size_t length, print name)
{
  uint8_t             digest[EVP_MAX_MD_SIZE];
  unsigned            i, size = 0;

  if (EVP_Digest (bytes, length, digest, &size, EVP_sha256 (), NULL) != 1
      || 2 * size + 1 != sizeof (print)) {
    complain ("SHA-256", "not to be had from libcrypto");
    MPI_Abort (MPI_COMM_WORLD, 1);
  }
  for (i = 0; i < size; ++i) {
    snprintf (name + 2 * i, 3, "%02x", (unsigned) digest[i]);
  }
}
