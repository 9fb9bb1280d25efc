/* Files that survive a kill, and their fingerprints. */
#ifndef FILES_H
#define FILES_H

#include "../mpi/exchange.h"

/* SHA-256 as 64 hexadecimal digits, and '\0' */
typedef char        print[65];

/* A function that gives an int gives 1 if all went well; else it gives 0 and has said on standard error what is wrong: the
 * process, the file and why. */
int                 complain (const char *file, const char *format, ...);

/* Whether no process has complained. Collective. */
int                 all_well (int well);

/* FOLDER/NAMEENDING, from malloc */
char               *path_of (const char *folder, const char *name,
                             const char *ending);

/* Make the folder unless it is there. */
int                 make_folder (const char *folder);

/* Files that were renamed are in the folder for good once this is done. */
int                 sync_folder (const char *folder);

/* The file gets its name when all its bytes are on the disk: who finds the name finds the whole file, even if this process
 * is killed on the way. */
int                 write_file (const char *folder, const char *name,
                                const uint8_t * bytes, size_t length);

/* All bytes of a file, and a '\0' after them, from malloc; or NULL with errno, and nothing is said. */
uint8_t            *read_file (const char *path, size_t *length);

void                fingerprint (const uint8_t * bytes, size_t length,
                                 print name);

#endif
