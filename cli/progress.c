/* A line on standard error that tells how far long work is. */
#include "cli.h"

#include <time.h>
#include <unistd.h>

static double
now (void)
{
  struct timespec     at;

  if (clock_gettime (CLOCK_MONOTONIC, &at) != 0) {
    return 0;
  }
  return (double) at.tv_sec + (double) at.tv_nsec / 1e9;
}

progress
progress_of (const char *what)
{
  progress            p = { what, 0, 0, 0 };

  p.since = isatty (2) ? now () : -1;
  return p;
}

void
progress_at (progress * p, uint64_t done, uint64_t all)
{
  double              at;

  if (p->since < 0) {
    return;
  }
  at = now ();
  if (at - p->since > 1 && at - p->last > 0.2) {
    fprintf (stderr, "\rvejgodat: %s %" PRIu64 " of %" PRIu64, p->what, done,
             all);
    fflush (stderr);
    p->last = at;
    p->seen = 1;
  }
}

void
progress_end (progress * p)
{
  if (p->seen) {
    fprintf (stderr, "\r\033[K");
    p->seen = 0;
  }
}
