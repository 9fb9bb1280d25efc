/* Draws the output of the program `plan` as an SVG: ./plan < tables.txt | plan-picture > moves.svg
 *
 * The drawing is that of `vejgodat plan --svg`, see cli/picture.c. */
#include "../../cli/picture.h"

#include <vejgodat.h>

#define MOST_RANKS 1024
#define MOST_MOVES (3 * MOST_RANKS)

static move         moves[MOST_MOVES];
static unsigned     ranks, trees, count;

/* Read the plan's output; 0 where it has another form. */
static int
read_plan (FILE * in)
{
  char                line[128], rest;
  unsigned            number;
  move                m;
  int                 stage = 0;

  while (fgets (line, sizeof line, in) != NULL) {
    if (stage == 0 && sscanf (line, "refused=%u%c", &number, &rest) == 2) {
      fprintf (stderr, "plan-picture: the plan was refused (%u): %s\n",
               number, vejgodat_refusal_text (number));
      return 0;
    }
    if (stage == 0 && sscanf (line, "ranks=%u%c", &ranks, &rest) == 2
        && rest == '\n' && 1 <= ranks && ranks <= MOST_RANKS) {
      stage = 1;
    }
    else if (stage == 1 && sscanf (line, "trees=%u%c", &trees, &rest) == 2
             && rest == '\n') {
      stage = 2;
    }
    else if (stage == 2 && count < MOST_MOVES
             && sscanf (line, "move=%u,%u,%u,%u%c", &m.sender, &m.receiver,
                        &m.first, &m.last, &rest) == 5 && rest == '\n'
             && m.sender < ranks && m.receiver < ranks && m.first <= m.last
             && m.last < trees) {
      moves[count++] = m;
    }
    else if (stage == 2
             && sscanf (line, "messages=%u%c", &number, &rest) == 2
             && rest == '\n' && number == count) {
      stage = 3;
    }
    else {
      stage = -1;
      break;
    }
  }
  if (stage != 3) {
    fprintf (stderr, "plan-picture: this is no output of plan\n");
  }
  return stage == 3;
}

int
main (void)
{
  if (!read_plan (stdin)) {
    return 1;
  }
  if (!draw_moves (stdout, ranks, trees, moves, count)) {
    fprintf (stderr, "plan-picture: no memory\n");
    return 1;
  }
  return 0;
}
