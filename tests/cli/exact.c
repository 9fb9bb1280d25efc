/* Stands in for mmap and munmap in the builds under the sanitizers: a file is read into memory of exactly its
 * length, so that a read one byte past its end is seen. */
#define _XOPEN_SOURCE 700

#include <stdlib.h>
#include <sys/mman.h>
#include <unistd.h>

void               *__wrap_mmap (void *at, size_t length, int protection,
                                 int flags, int file, off_t from);
int                 __wrap_munmap (void *at, size_t length);

void               *
__wrap_mmap (void *at, size_t length, int protection, int flags, int file,
             off_t from)
{
  char               *bytes = malloc (length);
  size_t              done = 0;
  ssize_t             got;

  (void) at, (void) protection, (void) flags;
  while (bytes != NULL && done < length) {
    got = pread (file, bytes + done, length - done, from + (off_t) done);
    if (got <= 0) {
      free (bytes);
      return MAP_FAILED;
    }
    done += (size_t) got;
  }
  return bytes == NULL ? MAP_FAILED : bytes;
}

int
__wrap_munmap (void *at, size_t length)
{
  (void) length;
  free (at);
  return 0;
}
