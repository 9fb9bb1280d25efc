/* The probes leave the caller's floating-point environment as it is: no flag is raised, and no trap goes off, whatever the
 * boxes hold. A quiet and a signalling NaN and both infinities stand at each of the six places of a box, in the first, a
 * middle and the last tree, and a quiet NaN at each place of a probe. A trap ends the program by SIGFPE. */
#define _GNU_SOURCE
#include <vejgodat.h>

#include <fenv.h>
#include <stdio.h>
#include <string.h>

/* more trees than a vector holds, and a rest */
#define TREES 27
#define LOW 0x3f800000u         /* 1 */
#define HIGH 0x40000000u        /* 2 */
#define PLUS_INFINITY 0x7f800000u
#define MINUS_INFINITY 0xff800000u

static const uint32_t nans[] = {
  0x7fc00000u, 0xffc00000u, 0x7fffffffu,        /* quiet */
  0x7f800001u, 0xff800001u, 0x7fbfffffu         /* signalling */
};
static const uint32_t quiet[] = { 0x7fc00000u, 0xffc00000u };

static uint8_t      mesh[VEJGODAT_MESH_BYTES (TREES)];
static uint8_t      part[VEJGODAT_PART_BYTES (TREES, 0)], table[16];
static uint32_t     out[TREES];
static int          traps;
static unsigned     calls, wrong;

static float
number (uint32_t bits)
{
  float               x;

  memcpy (&x, &bits, sizeof x);
  return x;
}

static void
put (uint32_t tree, uint32_t place, uint32_t bits)
{
  int                 i;
  uint8_t            *at = part + 32 + 64 * tree + 40 + 4 * place;

  for (i = 0; i < 4; ++i) {
    at[i] = (uint8_t) (bits >> (8 * i));
  }
}

static void
expect (const char *name, vejgodat_count answer, uint32_t refusal,
        uint32_t count)
{
  ++calls;
  if (answer.refusal != refusal || answer.count != count) {
    printf ("traps: vejgodat_%s answers %u, %u and not %u, %u\n", name,
            (unsigned) answer.refusal, (unsigned) answer.count,
            (unsigned) refusal, (unsigned) count);
    ++wrong;
  }
  if (fetestexcept (FE_ALL_EXCEPT) != 0) {
    printf ("traps: vejgodat_%s raises a flag\n", name);
    feclearexcept (FE_ALL_EXCEPT);
    ++wrong;
  }
}

#define PART part, sizeof part, table, sizeof table, 0
#define OUT out, TREES

/* all three calls, with probes that meet every sound box */
static void
all_calls (uint32_t refusal, uint32_t count)
{
  float               x = number (0x3fc00000u); /* 1.5 */
  uint32_t            axis;

  expect ("trees_at_point", vejgodat_trees_at_point (PART, x, x, x, OUT),
          refusal, count);
  for (axis = 0; axis < 3; ++axis) {
    expect ("trees_below", vejgodat_trees_below (PART, axis, x, OUT), refusal,
            count);
    expect ("trees_between", vejgodat_trees_between (PART, axis, x, x, OUT),
            refusal, count);
  }
}

static void
boxes (void)
{
  static const uint32_t trees[] = { 0, 13, TREES - 1 };
  uint32_t            i, j, place, usual;

  all_calls (VEJGODAT_OK, TREES);
  for (i = 0; i < 3; ++i) {
    for (place = 0; place < 6; ++place) {
      usual = place < 3 ? LOW : HIGH;
      for (j = 0; j < sizeof nans / sizeof nans[0]; ++j) {
        put (trees[i], place, nans[j]);
        all_calls (VEJGODAT_BOX, 0);
      }
      put (trees[i], place, place < 3 ? MINUS_INFINITY : PLUS_INFINITY);
      all_calls (VEJGODAT_OK, TREES);
      /* low above high */
      put (trees[i], place, place < 3 ? PLUS_INFINITY : MINUS_INFINITY);
      all_calls (VEJGODAT_BOX, 0);
      put (trees[i], place, usual);
    }
  }
}

static void
probes (void)
{
  uint32_t            i, axis;
  float               x = number (LOW), y = number (HIGH), n;
  float               least = number (MINUS_INFINITY);
  float               most = number (PLUS_INFINITY);

  for (i = 0; i < sizeof quiet / sizeof quiet[0]; ++i) {
    n = number (quiet[i]);
    expect ("trees_at_point", vejgodat_trees_at_point (PART, n, x, x, OUT),
            VEJGODAT_PROBE, 0);
    expect ("trees_at_point", vejgodat_trees_at_point (PART, x, n, x, OUT),
            VEJGODAT_PROBE, 0);
    expect ("trees_at_point", vejgodat_trees_at_point (PART, x, x, n, OUT),
            VEJGODAT_PROBE, 0);
    expect ("trees_at_point", vejgodat_trees_at_point (PART, n, n, n, OUT),
            VEJGODAT_PROBE, 0);
    for (axis = 0; axis < 4; ++axis) {
      expect ("trees_below", vejgodat_trees_below (PART, axis, n, OUT),
              VEJGODAT_PROBE, 0);
      expect ("trees_between", vejgodat_trees_between (PART, axis, n, x, OUT),
              VEJGODAT_PROBE, 0);
      expect ("trees_between", vejgodat_trees_between (PART, axis, x, n, OUT),
              VEJGODAT_PROBE, 0);
      expect ("trees_between", vejgodat_trees_between (PART, axis, n, n, OUT),
              VEJGODAT_PROBE, 0);
    }
  }
  for (axis = 0; axis < 3; ++axis) {
    expect ("trees_between", vejgodat_trees_between (PART, axis, y, x, OUT),
            VEJGODAT_PROBE, 0);
    expect ("trees_between",
            vejgodat_trees_between (PART, axis, most, least, OUT),
            VEJGODAT_PROBE, 0);
    expect ("trees_between",
            vejgodat_trees_between (PART, axis, least, most, OUT),
            VEJGODAT_OK, TREES);
    expect ("trees_below", vejgodat_trees_below (PART, axis, most, OUT),
            VEJGODAT_OK, TREES);
    expect ("trees_below", vejgodat_trees_below (PART, axis, least, OUT),
            VEJGODAT_OK, 0);
  }
}

int
main (void)
{
  uint32_t            first = 0, count = TREES, tree, place;

  if (vejgodat_write_brick (3, 3, 3, 0, 0, 0, mesh, sizeof mesh).refusal
      || vejgodat_write_table (1, &first, 1, &count, 1, table,
                               sizeof table).refusal
      || vejgodat_cut_part (mesh, sizeof mesh, table, sizeof table, 0, part,
                            sizeof part).refusal) {
    printf ("traps: no part\n");
    return 1;
  }
  for (tree = 0; tree < TREES; ++tree) {
    for (place = 0; place < 6; ++place) {
      put (tree, place, place < 3 ? LOW : HIGH);
    }
  }
  feclearexcept (FE_ALL_EXCEPT);
  for (traps = 0; traps < 2; ++traps) {
    if (traps) {
      feenableexcept (FE_ALL_EXCEPT);
    }
    boxes ();
    probes ();
  }
  printf ("traps: %u calls, %u wrong\n", calls, wrong);
  return wrong == 0 ? 0 : 1;
}
