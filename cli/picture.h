/* The moves between two tables as a picture, for the program `vejgodat` and the example plan-picture. */
#ifndef PICTURE_H
#define PICTURE_H

#include <stdint.h>
#include <stdio.h>

typedef struct
{
  uint32_t            sender, receiver, first, last;
}
move;

/* Draw an SVG. Ranks are below `ranks`, and no move's first tree is above its last. It is 0 where there is no
 * memory. */
int                 draw_moves (FILE * out, uint32_t ranks, uint32_t trees,
                                const move * moves, size_t count);

#endif /* PICTURE_H */
