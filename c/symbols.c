/* The inline functions of include/vejgodat.h as symbols of the archive, for languages that can't call inline functions. */
#define VEJGODAT_INLINE
#include <vejgodat.h>
