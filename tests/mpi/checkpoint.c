/* A layer under examples/checkpoint, linked with its sources, which decides in which order messages come and where a
 * process is killed. These environment variables say so; without them nothing is changed.
 *
 * ORDER: a number; each receiver takes its messages in the order of a permutation of its senders that follows from it. At
 * its end the run then prints a fingerprint of all orders.
 * KILL_RANK, KILL_AT: this rank is killed by SIGKILL before its KILL_AT-th call, from 1, of write, fsync or rename.
 *
 * To be linked with --wrap for these three and for vejgodat_receive_set. */
#define _POSIX_C_SOURCE 200809L
#include <mpi.h>
#include <signal.h>
#include <stdio.h>
#include <stdlib.h>
#include <sys/types.h>
#include <vejgodat.h>

/* what --wrap calls instead of a function, and what the function is then called */
vejgodat_ranks      __real_vejgodat_receive_set (const uint8_t * old_table,
                                                 size_t old_len,
                                                 const uint8_t * new_table,
                                                 size_t new_len,
                                                 uint32_t rank,
                                                 uint32_t * out,
                                                 size_t out_len);
vejgodat_ranks      __wrap_vejgodat_receive_set (const uint8_t * old_table,
                                                 size_t old_len,
                                                 const uint8_t * new_table,
                                                 size_t new_len,
                                                 uint32_t rank,
                                                 uint32_t * out,
                                                 size_t out_len);
ssize_t             __real_write (int file, const void *bytes, size_t length);
ssize_t             __wrap_write (int file, const void *bytes, size_t length);
int                 __real_fsync (int file);
int                 __wrap_fsync (int file);
int                 __real_rename (const char *from, const char *to);
int                 __wrap_rename (const char *from, const char *to);

/* ---- the order of messages ---- */

static uint32_t     senders[VEJGODAT_MAX_RANKS], taken;
static uint64_t     state, orders = 1;

static uint32_t
below (uint32_t n)
{
  state = state * UINT64_C (6364136223846793005) + 1442695040888963407u;
  return (uint32_t) ((state >> 32) * n >> 32);
}

/* The receive set, of which a permutation is kept. */
vejgodat_ranks
__wrap_vejgodat_receive_set (const uint8_t * old_table, size_t old_len,
                             const uint8_t * new_table, size_t new_len,
                             uint32_t rank, uint32_t * out, size_t out_len)
{
  const char         *order = getenv ("ORDER");
  vejgodat_ranks      set =
    __real_vejgodat_receive_set (old_table, old_len, new_table, new_len,
                                 rank, out, out_len);
  uint32_t            i, j;

  if (order != NULL && state == 0) {
    state = strtoul (order, NULL, 10) * 1000003 + rank;
  }
  for (i = 0; i < set.count; ++i) {
    j = below (i + 1);
    senders[i] = senders[j];
    senders[j] = out[i];
  }
  taken = 0;
  return set;
}

int
MPI_Probe (int source, int tag, MPI_Comm comm, MPI_Status * status)
{
  int                 size;

  if (getenv ("ORDER") != NULL) {
    PMPI_Comm_size (comm, &size);
    /* the process that has the part of this old rank */
    source = (int) (senders[taken++] % (uint32_t) size);
    orders = (orders ^ (uint64_t) source) * UINT64_C (0x100000001b3);
  }
  return PMPI_Probe (source, tag, comm, status);
}

int
MPI_Finalize (void)
{
  uint64_t            all;
  int                 rank;

  PMPI_Comm_rank (MPI_COMM_WORLD, &rank);
  if (getenv ("ORDER") != NULL) {
    PMPI_Reduce (&orders, &all, 1, MPI_UINT64_T, MPI_SUM, 0, MPI_COMM_WORLD);
    if (rank == 0) {
      printf ("orders=%016lx\n", (unsigned long) all);
    }
  }
  return PMPI_Finalize ();
}

/* ---- the kill ---- */

static void
killed_here (void)
{
  static unsigned long calls;
  const char         *victim = getenv ("KILL_RANK"), *at = getenv ("KILL_AT");
  int                 rank;

  if (victim != NULL && at != NULL) {
    PMPI_Comm_rank (MPI_COMM_WORLD, &rank);
    if (rank == atoi (victim) && ++calls == strtoul (at, NULL, 10)) {
      raise (SIGKILL);
    }
  }
}

ssize_t
__wrap_write (int file, const void *bytes, size_t length)
{
  killed_here ();
  return __real_write (file, bytes, length);
}

int
__wrap_fsync (int file)
{
  killed_here ();
  return __real_fsync (file);
}

int
__wrap_rename (const char *from, const char *to)
{
  killed_here ();
  return __real_rename (from, to);
}
