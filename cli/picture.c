/* The upper row has the ranks under the old table, the lower one under the new table. A band for each move goes from
 * the sender to the receiver, as wide as its number of trees; moves to oneself are pale. A rank is as wide as what it
 * sends above and what it gets below. */
#include "picture.h"

#include <inttypes.h>
#include <stdlib.h>
#include <string.h>

/* lengths are in tenths of a pixel */
#define MARGIN 600
#define WIDE 7200
#define THIN 30
#define UPPER 700
#define LOWER 2600
#define HIGH 180

typedef struct
{
  FILE               *out;
  uint32_t            ranks;
  uint64_t            all;      /* trees in all moves */
  long                gap;
  /* for the old and the new row: the trees that each rank sends or gets, those of them that are drawn, and where the
   * rank begins */
  uint64_t           *carried[2], *done[2];
  long               *left[2];
}
picture;

static const char  *const colours[8] =
  { "#0072b2", "#e69f00", "#009e73", "#cc79a7", "#56b4e9", "#d55e00",
  "#b5a900", "#666666"
};

static long
width (const picture * p, uint64_t of_trees)
{
  return p->all == 0 ? 0 : (long) (of_trees * WIDE / p->all);
}

static long
box (const picture * p, int row, uint32_t rank)
{
  const long          wide = width (p, p->carried[row][rank]);

  return wide < THIN ? THIN : wide;
}

/* a length in pixels, after a space */
static void
put (const picture * p, long tenths)
{
  fprintf (p->out, " %ld.%ld", tenths / 10, tenths % 10);
}

static void
put_label (const picture * p, long x, long y, const char *text)
{
  fprintf (p->out, "<text x=\"%ld.%ld\" y=\"%ld.%ld\">%s</text>\n", x / 10,
           x % 10, y / 10, y % 10, text);
}

/* Put the ranks of both rows in their places, each row in the middle; the width of the wider one. */
static long
lay_out (picture * p, const move * moves, size_t count)
{
  long                end[2], widest;
  size_t              i;
  uint32_t            rank;
  int                 row;

  for (i = 0; i < count; ++i) {
    const uint64_t      number = (uint64_t) moves[i].last - moves[i].first + 1;

    p->carried[0][moves[i].sender] += number;
    p->carried[1][moves[i].receiver] += number;
    p->all += number;
  }
  p->gap = p->ranks <= 16 ? 300 : 4800 / (long) p->ranks + 4;
  for (row = 0; row < 2; ++row) {
    end[row] = 0;
    for (rank = 0; rank < p->ranks; ++rank) {
      p->left[row][rank] = end[row];
      end[row] += box (p, row, rank) + p->gap;
    }
    end[row] -= p->gap;
  }
  widest = end[0] < end[1] ? end[1] : end[0];
  for (row = 0; row < 2; ++row) {
    for (rank = 0; rank < p->ranks; ++rank) {
      p->left[row][rank] += MARGIN + (widest - end[row]) / 2;
    }
  }
  return widest;
}

static void
draw_move (picture * p, const move * m)
{
  const uint64_t      number = (uint64_t) m->last - m->first + 1;
  const long          a = p->left[0][m->sender]
    + width (p, p->done[0][m->sender]);
  const long          b = p->left[0][m->sender]
    + width (p, p->done[0][m->sender] += number);
  const long          c = p->left[1][m->receiver]
    + width (p, p->done[1][m->receiver]);
  const long          d = p->left[1][m->receiver]
    + width (p, p->done[1][m->receiver] += number);
  const long          top = UPPER + HIGH, middle = (top + LOWER) / 2;
  char                text[32];

  fprintf (p->out, "<path fill=\"%s\" fill-opacity=\"%s\" d=\"M",
           colours[m->sender % 8], m->sender == m->receiver ? "0.2" : "0.7");
  put (p, a), put (p, top), fprintf (p->out, " C"), put (p, a);
  put (p, middle), put (p, c), put (p, middle), put (p, c), put (p, LOWER);
  fprintf (p->out, " L"), put (p, d), put (p, LOWER), fprintf (p->out, " C");
  put (p, d), put (p, middle), put (p, b), put (p, middle), put (p, b);
  put (p, top), fprintf (p->out, " Z\">");
  fprintf (p->out, "<title>rank %" PRIu32 " to rank %" PRIu32 ": trees %"
           PRIu32 " to %" PRIu32 "</title></path>\n", m->sender, m->receiver,
           m->first, m->last);
  if (m->first == m->last) {
    sprintf (text, "%" PRIu32, m->first);
  }
  else {
    sprintf (text, "%" PRIu32 " to %" PRIu32, m->first, m->last);
  }
  if (b - a >= 80 * (long) strlen (text)) {
    put_label (p, (a + b + c + d) / 4, middle + 40, text);
  }
}

static void
draw_ranks (const picture * p, int row)
{
  const long          y = row == 0 ? UPPER : LOWER;
  const long          label = row == 0 ? UPPER - 80 : LOWER + HIGH + 170;
  char                text[32];
  uint32_t            rank;

  for (rank = 0; rank < p->ranks; ++rank) {
    const long          wide = box (p, row, rank), left = p->left[row][rank];

    fprintf (p->out, "<rect fill=\"%s\" x=\"%ld.%ld\" y=\"%ld.%ld\""
             " width=\"%ld.%ld\" height=\"%ld.%ld\"/>\n",
             p->carried[row][rank] > 0 ? colours[rank % 8] : "#dddddd",
             left / 10, left % 10, y / 10, y % 10, wide / 10, wide % 10,
             (long) HIGH / 10, (long) HIGH % 10);
    if (wide + p->gap >= 250) {
      sprintf (text, "%s%" PRIu32, wide + p->gap >= 600 ? "rank " : "", rank);
      put_label (p, left + wide / 2, label, text);
    }
  }
}

static void
draw (picture * p, uint32_t trees, const move * moves, size_t count)
{
  const long          wide = lay_out (p, moves, count) + 2 * MARGIN;
  size_t              i;

  fprintf (p->out, "<svg xmlns=\"http://www.w3.org/2000/svg\""
           " viewBox=\"0 0 %ld 330\" font-family=\"sans-serif\""
           " font-size=\"14\" text-anchor=\"middle\">\n", (wide + 9) / 10);
  fprintf (p->out, "<rect width=\"100%%\" height=\"100%%\""
           " fill=\"#ffffff\"/>\n");
  fprintf (p->out, "<text x=\"%ld\" y=\"24\">%" PRIu32 " rank%s, %" PRIu32
           " tree%s, %lu message%s</text>\n", wide / 20, p->ranks,
           p->ranks == 1 ? "" : "s", trees, trees == 1 ? "" : "s",
           (unsigned long) count, count == 1 ? "" : "s");
  put_label (p, MARGIN / 2, UPPER + 140, "old");
  put_label (p, MARGIN / 2, LOWER + 140, "new");
  for (i = 0; i < count; ++i) {
    draw_move (p, &moves[i]);
  }
  draw_ranks (p, 0);
  draw_ranks (p, 1);
  fprintf (p->out, "</svg>\n");
}

int
draw_moves (FILE * out, uint32_t ranks, uint32_t trees, const move * moves,
            size_t count)
{
  picture             p;
  int                 row, there = 1;

  memset (&p, 0, sizeof p);
  p.out = out;
  p.ranks = ranks;
  for (row = 0; row < 2; ++row) {
    p.carried[row] = calloc (ranks, sizeof *p.carried[row]);
    p.done[row] = calloc (ranks, sizeof *p.done[row]);
    p.left[row] = calloc (ranks, sizeof *p.left[row]);
    there = there && p.carried[row] != NULL && p.done[row] != NULL
      && p.left[row] != NULL;
  }
  if (there) {
    draw (&p, trees, moves, count);
  }
  for (row = 0; row < 2; ++row) {
    free (p.carried[row]);
    free (p.done[row]);
    free (p.left[row]);
  }
  return there;
}
