/* What the files of the program `vejgodat` share. */
#ifndef CLI_H
#define CLI_H

#define _XOPEN_SOURCE 700

#include <vejgodat.h>

#include <inttypes.h>
#include <stdio.h>

/* The commands and their options (arguments.c) */

enum
{
  OPT_HELP, OPT_JSON, OPT_TABLE, OPT_RANK, OPT_AS, OPT_OUT, OPT_TREE,
  OPT_RECORD, OPT_RANKS, OPT_LEAVES, OPT_WEIGHTS, OPT_RANGES, OPT_PARTS,
  OPT_TEXT, OPT_SVG, OPT_PERIODIC, OPT_POINT, OPT_BELOW, OPT_BETWEEN, OPTIONS
};

/* one option as a member of a set of them */
#define TAKES(option) (UINT32_C (1) << (option))

typedef struct command command;

typedef struct
{
  const command      *command;
  const char         *value[OPTIONS];   /* NULL where it isn't given */
  char              **names;    /* what isn't an option */
  int                 count;
}
arguments;

struct command
{
  const char         *name, *usage, *summary, *help;
  uint32_t            options;  /* those that it takes beside --help */
  int                 least, most;      /* how many names; most is -1 for any */
  int                 (*run) (const arguments *);
};

extern const command command_check, command_show, command_table, command_plan,
  command_cut, command_brick, command_triangle, command_columns,
  command_rows, command_near, command_regions, command_diff;

/* Fill a from the words after the command's name. Bad usage ends the program. */
void                read_arguments (arguments * a, int count, char **words);
void                write_help (const command * c);
/* Say what is wrong with the command line, and end with status 2. */
void                bad_usage (const command * c, const char *words,
                               const char *what);
/* The number of an option or a name, or bad usage. */
uint32_t            number_of (const command * c, const char *text);
/* A list of `count` floats with commas between, or bad usage. */
void                floats_of (const command * c, const char *text,
                               float *list, int count);

/* Files (files.c) */

typedef struct
{
  const char         *name;     /* as it was given */
  const uint8_t      *bytes;
  size_t              length;
  void               *memory;   /* what close_input gives back, or NULL */
  int                 mapped;
}
input;

/* Memory, or the end of the program. */
void               *room (size_t bytes);
/* Write `vejgodat: NAME: WORDS` to standard error. It is 1, the status. */
int                 complain (const char *name, const char *words);
/* The same with the library's words for a refusal or a fault. */
int                 complain_refusal (const char *name, uint32_t refusal);
int                 complain_fault (const char *name, vejgodat_fault fault);
/* Map a file, `-` for standard input: NULL, or why it can't be read. */
const char         *open_input (input * in, const char *name);
/* The same with a complaint: 0, or the status. */
int                 take_input (input * in, const char *name);
void                close_input (input * in);
/* Write a whole file, or standard output where name is NULL or `-`: 0, or the
 * status. A file that was there stays as it is until the new one is whole. */
int                 write_output (const char *name, const void *bytes,
                                  size_t length);
/* The same for what a command makes, with its answer for --json. */
int                 deliver_output (const arguments * a, const void *bytes,
                                    size_t length);

/* Answers, as lines `name: value` or as JSON (writer.c) */

typedef struct
{
  int                 json, depth, fresh;
}
writer;

/* An object `{` or a list `[`. In lines only one with a name is seen. */
void                begin (writer * w, const char *name, char bracket);
void                end (writer * w, char bracket);
void                put_number (writer * w, const char *name,
                                uint64_t number);
void                put_text (writer * w, const char *name, const char *text);
void                put_flag (writer * w, const char *name, int flag);
void                put_null (writer * w, const char *name);
void                put_numbers (writer * w, const char *name,
                                 const uint32_t * list, size_t count);
/* The end of a whole answer. */
void                finish (writer * w);

/* A line on standard error for work over a second, if that is a terminal
 * (progress.c) */

typedef struct
{
  const char         *what;
  int                 seen;
  double              since, last;
}
progress;

progress            progress_of (const char *what);
void                progress_at (progress * p, uint64_t done, uint64_t all);
/* Take the line away, before other output and at the end. */
void                progress_end (progress * p);

/* Tables and lists of numbers (lists.c) */

typedef struct
{
  int64_t            *list;
  size_t              count;
}
numbers;

/* Whether the bytes are digits, signs, commas and blanks alone. */
int                 is_text (const uint8_t * bytes, size_t length);
/* Numbers in text: NULL, or what is wrong with it. */
const char         *read_numbers (const input * in, numbers * found);
/* Numbers from 0 to 4,294,967,295 of a file: 0, or the status. */
int                 take_list (const char *name, uint32_t ** list,
                               size_t *count);
/* The bytes of a table from its text: NULL, or what is wrong with that. */
const char         *read_table (const input * in, input * table);
/* The bytes of a table in a file, bytes or text; it may not be valid. */
const char         *open_table (input * in, const char *name);
/* A valid table from a file, bytes or text: 0, or the status. */
int                 take_table (input * in, const char *name);
/* P and K of a valid table. */
uint32_t            table_ranks (const input * table);
uint32_t            table_trees (const input * table);

/* What a file is (kinds.c) */

/* in the order in which they are tried */
enum
{
  MESH, PART, COLUMNS, MESSAGE, AREA, TABLE, KINDS
};

extern const char  *const kind_names[KINDS + 1];
extern const char  *const shape_names[6];

/* The table and the rank that a part is checked with. */
typedef struct
{
  input               table;
  uint32_t            rank;
  int                 own;      /* the table is made of the part's header */
  uint32_t            refusal;  /* not 0 where the header fits no table */
}
frame;

typedef struct
{
  int                 kind;     /* KINDS where none fits */
  const char         *by;       /* "contents", "header" or "option" */
  int                 text;     /* a table that is text */
  int                 own;      /* a part whose table is of its own header */
  vejgodat_fault      fault;    /* refusal and fault are 0 if it is sound */
  vejgodat_wrong_field header;  /* what is wrong with a header */
  const char         *words;    /* NULL, or what is wrong where no call says it */
}
verdict;

/* The frame of a part: the table given, or, where that is NULL, the least table
 * with the range of the part's header. */
frame               frame_of (const arguments * a, const input * in,
                              const input * table);
void                close_frame (frame * f);
/* The kind that --as names, KINDS where it isn't given. */
int                 kind_given (const arguments * a);
/* The table of --table: 0, or the status. *given is NULL where it isn't given. */
int                 table_given (const arguments * a, input * table,
                                 const input ** given);
verdict             judge (const arguments * a, const input * in,
                           const input * table);
int                 is_sound (const verdict * v);
/* The verdict in words. */
void                write_verdict (const verdict * v, char *text,
                                   size_t text_len);
/* Say where a file fails as a kind, or the refusal if it doesn't: the status. */
int                 complain_as (const arguments * a, int kind,
                                 const input * in, const input * table,
                                 uint32_t refusal);
/* The part of a column file, by its header and length alone; NULL where these
 * don't fit. */
uint8_t            *rows_of (const uint8_t * columns, size_t length);

/* The records of an object, as far as its bytes reach (view.c) */

typedef struct
{
  int                 kind;     /* a mesh, a part, a message or an area */
  const uint8_t      *bytes;
  size_t              length, trees_at, ghosts_at;
  uint32_t            dimension, trees, ghosts;
}
view;

/* 0 where the length isn't enough for a header. */
int                 look (view * v, int kind, const uint8_t * bytes,
                          size_t length);
/* A record, trees before ghosts; NULL where there is none. */
const uint8_t      *record_at (const view * v, uint32_t index);
/* The index of the record with a number; 0 where there is none. */
int                 record_with (const view * v, uint32_t number,
                                 uint32_t * index);
void                write_record (writer * w, const view * v, uint32_t index);
/* What stands at a byte: its name, where it begins and how long it is. */
void                name_place (int kind, const uint8_t * bytes,
                                size_t length, size_t at, char *name,
                                size_t name_len, size_t *begins,
                                size_t *wide);

/* A folder of parts (folder.c) */

typedef struct
{
  uint32_t            ranks, trees, dimension;
  char              **paths;    /* of each rank */
  uint32_t           *first, *count;
}
folder;

/* Every rank's part of one mesh: 0, or the status. */
int                 take_folder (folder * f, const char *name);
void                close_folder (folder * f);

#endif /* CLI_H */
