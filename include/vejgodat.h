/** \file vejgodat.h
 *
 * Repartitioning of coarse meshes for tree-based adaptive mesh refinement:
 * offset tables, the communication pattern between two of them, whole meshes,
 * the part of a mesh that a rank has, the messages between ranks, and the area
 * in which a rank's new part is assembled from them.
 *
 * Link with libvejgodat.a, which `make` writes to target/lib/ and
 * `make install` puts with this header below PREFIX. The library is
 * proved to do what its definitions say for every input. It allocates nothing,
 * keeps no state between calls and always returns; all that it needs is stack,
 * see What a caller must keep. Calls may run on any number of threads at once
 * as long as none writes a buffer that another one uses.
 *
 * ## Terms
 *
 * There are P ranks, 0 to P - 1, with P from 1 to \ref VEJGODAT_MAX_RANKS, and
 * K trees, 0 to K - 1, with K from 1 to \ref VEJGODAT_MAX_TREES. A tree is on
 * every rank that holds a leaf of it, so neighbouring ranks may share a tree.
 *
 * An offset table O is P + 1 signed 64-bit entries, little-endian, 8 (P + 1)
 * bytes in all, at any address. P is read from its length, and K is O[P]. On a
 * little-endian machine these are the bytes of an `int64_t[P + 1]`, which may
 * be given as `(const uint8_t *) O`. Since P is read from the length, a table
 * that is given one entry short is taken for one of P - 1 ranks, whose K is the
 * entry that is then the last. It may be valid as such, as {0,2,4,6} of
 * {0,2,4,6,8} is.
 *
 * All ranks give the same tables to the calls of one move. Where they don't,
 * a rank waits for messages that nobody sends, or a message is refused with 14
 * or 16. So make a table on one rank and broadcast it.
 *
 *  - First tree of rank p: O[p] if O[p] >= 0, else -O[p] - 1. A negative entry
 *    says that this tree is shared with the nearest lower rank that has trees.
 *  - End, one past the last tree of p: |O[p + 1]|.
 *  - Count: end minus first; 0 for an empty rank. The range of p is f(p).
 *
 * A table is valid if O[0] = 0, O[P] is a K within its limits, no entry is
 * above K or below -K, and each count is at least 0, and at least 1 where O[p]
 * is negative. {0,3,-3,5} is valid: rank 0 has trees 0 to 2, rank 1 has none,
 * rank 2 has 2 to 4.
 *
 * ## Whole meshes
 *
 * A whole mesh is bytes at any address, every number in it little-endian:
 *
 *     at 0   uint32_t     the dimension, 2 or 3
 *     at 4   uint32_t     K
 *     at 8   K records    tree 0 to tree K - 1, 64 bytes each
 *
 * so 8 + 64 K bytes in all. A tree record is a core record of 40 bytes and
 * 24 bytes of tree data, which are the caller's and may be anything:
 *
 *     at 0   uint32_t     the tree's number
 *     at 4   uint8_t      the shape
 *     at 5   3 bytes      zero
 *     at 8   uint32_t[6]  the neighbour's number, for each face
 *     at 32  uint8_t[6]   the face code, for each face
 *     at 38  uint16_t     the region, below 4,096; 0 for none
 *     at 40  24 bytes     tree data
 *
 * The shapes, their faces and the corners of these:
 *
 *     0  quadrilateral  dimension 2, 4 faces of 2 corners
 *     1  triangle       dimension 2, 3 faces of 2 corners
 *     2  hexahedron     dimension 3, 6 faces of 4 corners
 *     3  tetrahedron    dimension 3, 4 faces of 3 corners
 *     4  prism          dimension 3, faces 0 to 2 of 4, 3 and 4 of 3 corners
 *     5  pyramid        dimension 3, faces 0 to 3 of 3, face 4 of 4 corners
 *
 * The corners of each face, in the order of their places in it: place 0, 1 and
 * so on.
 *
 *                       face 0   face 1   face 2   face 3   face 4   face 5
 *     0  quadrilateral  0 2      1 3      0 1      2 3
 *     1  triangle       1 2      0 2      0 1
 *     2  hexahedron     0 2 4 6  1 3 5 7  0 1 4 5  2 3 6 7  0 1 2 3  4 5 6 7
 *     3  tetrahedron    1 2 3    0 2 3    0 1 3    0 1 2
 *     4  prism          1 2 4 5  0 2 3 5  0 1 3 4  0 1 2    3 4 5
 *     5  pyramid        0 2 4    1 3 4    0 1 4    2 3 4    0 1 2 3
 *
 *     quadrilateral              triangle
 *            f3                                            y
 *        2-------3                  2                      |
 *        |       |                  | .                    o-- x
 *     f0 |       | f1            f1 |   . f0
 *        |       |                  |     .
 *        0-------1                  0-------1
 *            f2                         f2
 *
 *     hexahedron                 tetrahedron
 *          6-------7                    3                  z
 *         /|      /|                   /|.                 |  y
 *        4-------5 |                  / | .                | /
 *        | |     | |                 /  2  .               o-- x
 *        | 2-----|-3                / .   . .
 *        |/      |/                0---------1
 *        0-------1
 *     faces 0 and 1: low and     face i has all corners
 *     high on x; 2 and 3: on     but corner i
 *     y; 4 and 5: on z
 *
 *     prism                      pyramid
 *           5                              4               z
 *         / | .                          / . . .           |  y
 *       3-------4                      /   .  .   .        | /
 *       |   |   |                    /     2----.----3     o-- x
 *       |   2   |                  /   .         . /
 *       | .   . |                0----------------1
 *       0-------1
 *     faces 0 to 2: upright,     faces 0 and 1: low and
 *     without corners i and      high on x; 2 and 3: on
 *     i + 3; 3: low on z;        y; 4: the base
 *     4: high on z
 *
 * In a quadrilateral and a hexahedron bit 0 of a corner's number says whether it
 * is low or high on x, bit 1 on y, and bit 2 on z: the order of p4est.
 *
 * Two faces that meet have the same vertices. Of the two, the first is the one
 * whose tree has the lower shape number; of equal shapes, the one with the lower
 * face number; of equal faces, the one of the lower tree. The orientation is the
 * place, in the other face, of the vertex that is at place 0 of the first. Both
 * ends of the link carry it. For quadrilaterals and hexahedra it is p4est's.
 * The library checks only that an orientation is below the number of corners of
 * the face, and that both ends carry the same. A mesh has no vertices, so no
 * check finds an orientation that is wrong at both ends.
 *
 * A face code is the orientation times F plus the neighbour's face, where F is
 * 4 in dimension 2 and 6 in dimension 3. At the domain's boundary a face has
 * its own tree as neighbour, itself as the neighbour's face and orientation 0.
 * A face that the shape doesn't have has the neighbour 4,294,967,295 and the
 * code 0.
 *
 * A mesh is sound if the dimension is 2 or 3, K is within its limits, the
 * length is 8 + 64 K, and of each record
 *
 *  - the number is the record's place, from 0;
 *  - the shape is one of the dimension, its reserved bytes (5 to 7) are zero, and
 *    the region is below 4,096;
 *  - the faces that the shape doesn't have are marked as above;
 *  - every other face has an orientation below the number of its corners, and
 *    meets a face of a tree below K that has as many corners, and whose own
 *    link leads back to it with the same orientation;
 *  - a face that meets itself has orientation 0: it is the boundary.
 *
 * Two trees may meet at several faces, and a tree may meet itself.
 *
 * ## Parts
 *
 * A ghost of rank p is a tree outside f(p) with a face neighbour in f(p). The
 * part of p holds the records of p's n trees and g ghosts. It is bytes at any
 * address, every number in it little-endian:
 *
 *     at 0          uint32_t   the dimension, 2 or 3
 *     at 4          uint32_t   K
 *     at 8          uint32_t   P
 *     at 12         uint32_t   the rank p
 *     at 16         uint32_t   the first tree of p
 *     at 20         uint32_t   n
 *     at 24         uint32_t   g
 *     at 28         uint32_t   0
 *     at 32         n records  the trees of f(p), tree records of 64 bytes
 *     at 32 + 64 n  g records  the ghosts, core records of 40 bytes
 *
 * so 32 + 64 n + 40 g bytes in all, and never more than 32 + 64 K. Trees and
 * ghosts each ascend by their numbers. The header of an empty rank has its
 * first tree as \ref vejgodat_table_range gives it, and n and g are 0.
 *
 * Trees and ghosts have their global numbers at the beginning of their records.
 * The neighbours in a ghost's record are global numbers too: it is the core
 * record of the whole mesh. In a tree record a neighbour is a local index:
 *
 *     i, below n        tree i of the part, whose number is first tree + i
 *     n + j, j below g  ghost j of the part, whose number is in its record
 *     4,294,967,295     none: the shape doesn't have this face
 *
 * and at the domain's boundary it is the tree's own local index. Everything
 * else in a tree record is as in the whole mesh.
 *
 * A part is sound for a table and a rank p if
 *
 *  - the dimension is 2 or 3; K, P, the rank, its first tree and n are those of
 *    the table and p; the last number of the header is 0; and the length is
 *    32 + 64 n + 40 g;
 *  - tree i has the number first tree + i; the ghosts' numbers ascend strictly
 *    and are below K and outside f(p);
 *  - each record has a shape of the dimension, its reserved bytes are zero, its
 *    region is below 4,096, the faces that the shape doesn't have are marked so,
 *    and a face that meets itself has orientation 0;
 *  - every face that a tree's shape has meets a tree or a ghost of the part,
 *    and every ghost meets a tree of it: the ghosts are exactly those of p;
 *  - a link between two records of the part, or from one to itself, is as in a
 *    whole mesh: an orientation below the number of corners, as many corners on
 *    both sides, and answered with the same orientation;
 *  - a ghost's link to a tree that the part doesn't hold has a number below K,
 *    and an orientation below the number of corners of its own face. The face
 *    that it meets there can't be looked at.
 *
 * ## Messages
 *
 * When the mesh moves from an old table to a new one, rank p sends rank q a
 * message with the records of the trees that it sends to q (see Who sends) and
 * of some ghosts of q under the new table. It is bytes at any address, every
 * number in it little-endian:
 *
 *     at 0          uint32_t   the epoch, a number of the caller's
 *     at 4          uint32_t   the dimension, 2 or 3
 *     at 8          uint32_t   K
 *     at 12         uint32_t   P
 *     at 16         uint32_t   the sender p
 *     at 20         uint32_t   the receiver q
 *     at 24         uint32_t   n, the number of trees
 *     at 28         uint32_t   g, the number of ghosts
 *     at 32         n records  the trees, tree records of 64 bytes
 *     at 32 + 64 n  g records  the ghosts, core records of 40 bytes
 *
 * so 32 + 64 n + 40 g bytes in all, and never more than 32 + 64 K in one that
 * \ref vejgodat_build_message writes. Trees and ghosts each ascend by their
 * numbers. All neighbours are global numbers, as in a whole mesh; tree data
 * goes with the trees and not with the ghosts.
 *
 * A message shows the tree data of the trees that are sent in it, and of no
 * other: what its receiver gets, its length and every refusal are the same
 * whatever the data of the others is, and so is the area of a rank whatever the
 * data of trees outside its new range is. Cutting, looking up, columns and
 * probes show data by intent.
 *
 * A message is in layout if
 *
 *  - the dimension is 2 or 3 and the length is 32 + 64 n + 40 g;
 *  - each record has a shape of the dimension, its reserved bytes are zero, its
 *    region is below 4,096, the faces that the shape doesn't have are marked so,
 *    a face that meets itself has orientation 0, and the neighbours at all faces
 *    that the shape has are below the message's K;
 *  - the numbers of the trees ascend strictly, and so do those of the ghosts.
 *
 * Nothing else plays a part in this: not P, the ranks, the limits of K, whether
 * a record's own number is below K, the orientation of a face that meets
 * another one, or whether links are answered. A message without trees may be in
 * layout.
 *
 * Which ghosts a message has: rank p considers ghost k for q if p sends q a
 * face neighbour of k and k is a ghost of q under the new table. It sends k to
 * q if p = q, or if q doesn't consider k and p is the smallest rank that does.
 * So each ghost of q comes from exactly one rank, and the part of p under the
 * old table has all that p needs to know of its own.
 *
 * ## Areas
 *
 * Rank q gathers the messages meant for it in an area, one for each epoch,
 * which the caller makes room for and lends to each call. An area is bytes at
 * any address, with n the number of trees of q under the new table, F the
 * largest number of faces of the dimension (4 or 6) and every number
 * little-endian:
 *
 *     at 0                   uint32_t      the epoch
 *     at 4                   uint32_t      the dimension, 2 or 3
 *     at 8                   uint32_t      K
 *     at 12                  uint32_t      P
 *     at 16                  uint32_t      the rank q
 *     at 20                  uint32_t      n
 *     at 24                  uint32_t      h, the number of ghosts held
 *     at 28                  uint32_t      0
 *     at 32                  8 (P + 1)     the old table
 *     at 40 + 8 P            8 (P + 1)     the new table
 *     at 48 + 16 P           uint64_t[w]   the senders heard: bit s mod 64 of
 *                                          word s div 64 for sender s
 *     at A = 48 + 16 P + 8 w 64 n          a slot for each tree of f'(q)
 *     at A + 64 n            40 F n        slots for ghosts
 *
 * where w is 16 for P up to 1,024 and 256 above. So an area has
 * 176 + 16 P + (64 + 40 F) n bytes up to 1,024 ranks and
 * 2,096 + 16 P + (64 + 40 F) n above; the buffer may be longer, and what
 * follows the area is never read or written. The first h ghost slots hold
 * the ghosts that have come, ascending by number; every slot without a record
 * is zero. For messages built from one mesh with the same tables and epoch, the
 * set of heard senders decides every byte of the area of a rank, in whatever
 * order their messages came.
 *
 * An area is sound if
 *
 *  - it is long enough, the dimension is 2 or 3, both tables are valid, and the
 *    header is as they say;
 *  - only ranks of the receive set of q are heard;
 *  - the slot of each tree that a heard sender sends to q holds a record in form
 *    with that tree's number, and every other tree slot is zero;
 *  - h is at most F times the number of those slots that hold a tree due from a
 *    heard sender; the ghosts held are in form, below K and outside f'(q),
 *    and ascend strictly; every other ghost slot is zero.
 *
 * A record is in form if its shape is one of the six, its reserved bytes are
 * zero, its region is below 4,096, the faces that the shape doesn't have are
 * marked so, and a face that meets itself has orientation 0. The area's
 * dimension plays no part in this: F is that of the record's own shape. So a
 * boundary with an orientation makes an area unsound (10), while a slot with a
 * shape of the other dimension doesn't, and the close refuses it (21).
 *
 * Neighbours in the slots may otherwise be any numbers. The close checks whether
 * all links fit together.
 *
 * ## Refusals
 *
 * Each call checks its input itself and returns a refusal: 0, or the number of
 * the first check that fails. The checks come in the order 26, 27, 28, 29, 2,
 * 30, 3 to 8, 24, 23, 25, 31, 32, 33, 64, 65, 9 to 22, and each is made of all
 * arguments before the next one is made of any: of two tables, a bad length (2)
 * decides before bad entries (3), whichever of the two has them. (Only the program plan
 * gives 1, before all others.) The numbers of this header's calls are those of
 * \ref VEJGODAT_OK and the names that follow it, and
 * \ref vejgodat_refusal_text has words for them. Only \ref vejgodat_lookup,
 * \ref vejgodat_corners, \ref vejgodat_mesh_fault, \ref vejgodat_mesh_header
 * and \ref vejgodat_version have nothing to refuse.
 *
 * Where a call refuses, every other field of its result is 0 and every buffer
 * has the bytes that it had before. Where it accepts, it writes the first bytes
 * or entries of its buffer, as many as the result says, and leaves those after
 * them. Two calls differ: \ref vejgodat_deliver and \ref vejgodat_deliver_all
 * write into the area, anywhere in it, and \ref vejgodat_region_counts always
 * writes \ref VEJGODAT_REGIONS entries.
 *
 * ## What a caller must keep
 *
 * No call can check the following, and each relies on it.
 *
 *  - A pointer and the count after it name memory that may be read (that may
 *    be written, for `out`). A null pointer goes with a count of 0 only.
 *  - A count of uint8_t is a number of bytes, one of uint32_t a number of
 *    entries and not of bytes. Lists of uint32_t are aligned as uint32_t;
 *    everything that is bytes may be at any address.
 *  - A buffer that a call writes overlaps no other buffer of that call. Where
 *    it does, the call writes garbage and gives no refusal: no part can be cut
 *    into its mesh, and none turned into columns in its place. Buffers that a
 *    call only reads may overlap: the same table may be given as old and as new.
 *  - Nobody else writes a buffer of a call while the call runs.
 *  - The thread has stack left. Calls that measure, cut or check a part (column
 *    files too) or close an area need up to 208 KiB; \ref vejgodat_deliver and
 *    \ref vejgodat_deliver_all 137 KiB; calls that build messages up to 336 KiB;
 *    \ref vejgodat_count_leaves and \ref vejgodat_leaf_counts 5 KiB; every other
 *    call less than 1 KiB. \ref VEJGODAT_STACK_BYTES are enough for each of
 *    these; a thread made with a stack of 128 KiB is too small. Only
 *    \ref vejgodat_triangle_length and \ref vejgodat_import_triangle need more,
 *    1.75 MiB whatever the file is; \ref VEJGODAT_IMPORT_STACK_BYTES are enough
 *    for them. No call can see that there is too little stack: it breaks the
 *    program.
 *  - A float that is given to a probe is no signalling NaN: the machine takes
 *    such a one for an invalid operation, which raises its flag, or traps where
 *    the caller enabled that. A quiet NaN is refused with 31. Of the floats in
 *    tree data nothing is asked: a box with a NaN, of either kind, is refused
 *    with 32 before any float is compared. So no call raises a flag of
 *    `<fenv.h>` or traps, whatever comes from other ranks.
 *  - Denormal floats are compared as they are. Where the thread has
 *    denormals-are-zero set, as `-ffast-math` does in a program that is linked
 *    with it, the machine takes a denormal for 0 where a probe is compared with
 *    a box, so trees within a denormal of the probe may be listed too. The
 *    checks 31 and 32 don't change, since they compare bits.
 *  - Tree data are the caller's and may be anything, so no check can see that a
 *    byte of them has changed, in a file, in memory or on the way to another
 *    rank. Where that matters, keep a checksum in them.
 */
#ifndef VEJGODAT_H
#define VEJGODAT_H

#include <stddef.h>
#include <stdint.h>

#ifdef __cplusplus
extern "C" {
#endif

/** The version of this header: 10000 major + 100 minor + patch. */
#define VEJGODAT_VERSION 600

/** Where the compiler knows how, it warns if a call's result is dropped. */
#if defined (__GNUC__) || defined (__clang__)
#define VEJGODAT_USE_RESULT __attribute__ ((__warn_unused_result__))
#else
#define VEJGODAT_USE_RESULT
#endif

/** How the functions whose bodies stand in this header are declared. The archive
 * has each of them as a symbol, too, for languages that can't call an inline
 * function: c/symbols.c defines this empty. */
#ifndef VEJGODAT_INLINE
#define VEJGODAT_INLINE static inline
#endif

/** The largest number of ranks P. */
#define VEJGODAT_MAX_RANKS 16384

/** The largest number of trees K. */
#define VEJGODAT_MAX_TREES 1048576

/** The largest number of leaves of one tree. */
#define VEJGODAT_MAX_LEAVES 16777216

/** The largest weight of a rank. */
#define VEJGODAT_MAX_WEIGHT 65535

/** The largest extent of a brick. */
#define VEJGODAT_MAX_EXTENT 64

/** The neighbour at a face that the shape doesn't have. */
#define VEJGODAT_UNUSED 4294967295u

/** The shapes of trees; their faces and corners are above, under Whole
 * meshes. */
enum
{
  VEJGODAT_QUADRILATERAL = 0,   /**< Dimension 2, 4 faces. */
  VEJGODAT_TRIANGLE = 1,        /**< Dimension 2, 3 faces. */
  VEJGODAT_HEXAHEDRON = 2,      /**< Dimension 3, 6 faces. */
  VEJGODAT_TETRAHEDRON = 3,     /**< Dimension 3, 4 faces. */
  VEJGODAT_PRISM = 4,           /**< Dimension 3, 5 faces. */
  VEJGODAT_PYRAMID = 5          /**< Dimension 3, 5 faces. */
};

/** Bytes of stack that are enough for any call but those that read an element
 * file. */
#define VEJGODAT_STACK_BYTES 360448

/** Bytes of stack that are enough for \ref vejgodat_triangle_length and
 * \ref vejgodat_import_triangle, and so for any call. */
#define VEJGODAT_IMPORT_STACK_BYTES 1851392

/** The bytes of an offset table of P ranks. */
#define VEJGODAT_TABLE_BYTES(P) (8 * ((size_t) (P) + 1))

/** The bytes of a whole mesh of K trees. */
#define VEJGODAT_MESH_BYTES(K) (8 + 64 * (size_t) (K))

/** The bytes of a part with n trees and g ghosts. */
#define VEJGODAT_PART_BYTES(n, g) (32 + 64 * (size_t) (n) + 40 * (size_t) (g))

/** The bytes of a message with n trees and g ghosts. */
#define VEJGODAT_MESSAGE_BYTES(n, g) VEJGODAT_PART_BYTES (n, g)

/** The words of heard senders in an area for P ranks. */
#define VEJGODAT_HEARD_WORDS(P) ((size_t) ((P) <= 1024 ? 16 : 256))

/** The bytes of an area for P ranks and n trees, with F faces at most: 4 in
 * dimension 2, 6 in dimension 3. */
#define VEJGODAT_AREA_BYTES(P, n, F) \
  (48 + 16 * (size_t) (P) + 8 * VEJGODAT_HEARD_WORDS (P) + \
   (64 + 40 * (size_t) (F)) * (size_t) (n))

/** What the number `refusal` of a result means. */
enum
{
  VEJGODAT_OK = 0,              /**< Accepted. */
  VEJGODAT_RANKS = 2,           /**< A rank count isn't within P's limits, 1
                                     to 16,384, or a table's length isn't
                                     8 (P + 1) bytes for such a P. */
  VEJGODAT_TABLE = 3,           /**< A table isn't valid. */
  VEJGODAT_DIFFER = 4,          /**< Old and new table differ in P or K. */
  VEJGODAT_INDEX = 5,           /**< A rank is >= P, a tree >= K, a local index
                                     >= the table's count for the rank, a face
                                     >= 6, or a dimension given for an area or
                                     an empty part is neither 2 nor 3. */
  VEJGODAT_PARTITION = 6,       /**< Ranges or leaf counts fit no table, or a
                                     limit isn't kept. */
  VEJGODAT_MESH = 7,            /**< A whole mesh isn't sound, or its K isn't
                                     the table's. */
  VEJGODAT_PART = 8,            /**< A part isn't sound for table and rank. */
  VEJGODAT_NOTHING = 9,         /**< The sender sends the receiver no tree, so
                                     there is no message. */
  VEJGODAT_AREA = 10,           /**< An area isn't sound. */
  VEJGODAT_LAYOUT = 11,         /**< A message breaks its layout. */
  VEJGODAT_RUN = 12,            /**< A message's epoch, dimension, K or P isn't
                                     the area's. */
  VEJGODAT_RECEIVER = 13,       /**< A message is for another rank. */
  VEJGODAT_SENDER = 14,         /**< A message's sender isn't in the receive
                                     set. */
  VEJGODAT_HEARD = 15,          /**< The sender is already heard. */
  VEJGODAT_TREES = 16,          /**< A message's trees aren't exactly those that
                                     its sender sends to the rank. */
  VEJGODAT_GHOSTS = 17,         /**< A ghost of a message is local under the new
                                     table, or is across no face of a tree of
                                     the message. */
  VEJGODAT_HELD = 18,           /**< A ghost of a message is already held. */
  VEJGODAT_FULL = 19,           /**< Reserved: no call gives this number. */
  VEJGODAT_MISSING = 20,        /**< Not every sender is heard. */
  VEJGODAT_JOIN = 21,           /**< The joined part isn't sound. */
  VEJGODAT_BUFFER = 22,         /**< A buffer is too short. */
  VEJGODAT_STRING = 23,         /**< A refinement string has a byte above 1, ends
                                     early, has bytes left or goes too deep. */
  VEJGODAT_SHAPE = 24,          /**< A shape has no refinement strings. */
  VEJGODAT_LEAVES = 25,         /**< A tree has too many leaves. */
  VEJGODAT_EXTENT = 26,         /**< An extent of a brick is 0 or above
                                     \ref VEJGODAT_MAX_EXTENT. Checked before
                                     anything else. */
  VEJGODAT_TEXT = 27,           /**< A text hasn't the form of an element file.
                                     Checked before all others. */
  VEJGODAT_TWICE = 28,          /**< A triangle has a vertex twice. Checked
                                     after \ref VEJGODAT_TEXT (27). */
  VEJGODAT_EDGE = 29,           /**< Three faces have the same two vertices.
                                     Checked after \ref VEJGODAT_TWICE (28). */
  VEJGODAT_WEIGHTS = 30,        /**< All weights are 0, or one is above
                                     \ref VEJGODAT_MAX_WEIGHT. Checked after
                                     \ref VEJGODAT_RANKS (2) and before
                                     \ref VEJGODAT_PARTITION (6). */
  VEJGODAT_PROBE = 31,          /**< A probe has a NaN, an axis above 2 or a
                                     lower limit above its upper. Checked after
                                     \ref VEJGODAT_PART (8) and before
                                     \ref VEJGODAT_BUFFER (22), as the next
                                     two. */
  VEJGODAT_BOX = 32,            /**< A tree's box has a NaN or low above
                                     high. */
  VEJGODAT_COLUMNS = 33,        /**< A column file isn't that of a sound
                                     part. */
  VEJGODAT_OCCUPIED = 64,       /**< A rank that must have no trees has some.
                                     Checked after \ref VEJGODAT_COLUMNS (33)
                                     and before \ref VEJGODAT_NOTHING (9), as
                                     the next one. */
  VEJGODAT_RANGE = 65           /**< K, first tree or count of a rank differ
                                     under two tables. */
};

/** Say what a refusal means, as part of a sentence without its full stop.
 *
 * \param [in] refusal    A result's refusal; any number.
 * \return                A text that lasts, also for 0, for 19, which is reserved,
 *                        and for any other number.
 */
VEJGODAT_INLINE const char *
vejgodat_refusal_text (uint32_t refusal)
{
  switch (refusal) {
  case VEJGODAT_OK:
    return "accepted";
  case 1:
    return "the text of a plan has another form";
  case VEJGODAT_RANKS:
    return "a rank count, or that of a table's length (8 (P + 1) bytes), isn't"
      " from 1 to 16,384";
  case VEJGODAT_TABLE:
    return "a table isn't valid";
  case VEJGODAT_DIFFER:
    return "the old and the new table differ in P or K";
  case VEJGODAT_INDEX:
    return "a rank is not below P, a tree not below K, a local index not below"
      " the table's count, a face not below 6, or a dimension neither 2 nor 3";
  case VEJGODAT_PARTITION:
    return "ranges or leaf counts fit no table or limit";
  case VEJGODAT_MESH:
    return "the whole mesh isn't sound, or its K isn't the table's";
  case VEJGODAT_PART:
    return "the part isn't sound";
  case VEJGODAT_NOTHING:
    return "the sender has no tree for the receiver";
  case VEJGODAT_AREA:
    return "the area isn't sound";
  case VEJGODAT_LAYOUT:
    return "the message breaks its layout";
  case VEJGODAT_RUN:
    return "the message's epoch, dimension, K or P isn't the area's";
  case VEJGODAT_RECEIVER:
    return "the message is for another rank";
  case VEJGODAT_SENDER:
    return "the message's sender isn't in the receive set";
  case VEJGODAT_HEARD:
    return "that sender is already heard";
  case VEJGODAT_TREES:
    return "the message's trees aren't exactly the range due";
  case VEJGODAT_GHOSTS:
    return "a ghost is local under the new table, or no neighbour of a tree in"
      " the message";
  case VEJGODAT_HELD:
    return "a ghost is already held";
  case VEJGODAT_FULL:
    return "reserved: no call gives this number";
  case VEJGODAT_MISSING:
    return "close before all are heard";
  case VEJGODAT_JOIN:
    return "the joined part isn't sound";
  case VEJGODAT_BUFFER:
    return "a buffer is too short";
  case VEJGODAT_STRING:
    return "a refinement string has a byte above 1, ends early, has bytes left"
      " or goes deeper than 20";
  case VEJGODAT_SHAPE:
    return "the shape is a prism, a pyramid or none, and has no refinement"
      " strings";
  case VEJGODAT_LEAVES:
    return "a tree has over 16,777,216 leaves";
  case VEJGODAT_EXTENT:
    return "an extent is outside its limits (1 to 64)";
  case VEJGODAT_TEXT:
    return "the text hasn't the form of an element file";
  case VEJGODAT_TWICE:
    return "a triangle has a vertex twice";
  case VEJGODAT_EDGE:
    return "three faces have one vertex set";
  case VEJGODAT_WEIGHTS:
    return "all weights are 0, or one is above 65,535";
  case VEJGODAT_PROBE:
    return "the probe has a NaN, an axis above 2 or a lower limit above its"
      " upper";
  case VEJGODAT_BOX:
    return "a tree's box has a NaN or low above high";
  case VEJGODAT_COLUMNS:
    return "the column file isn't that of a sound part";
  case VEJGODAT_OCCUPIED:
    return "a rank that is left out, or whose part is to be empty, has trees";
  case VEJGODAT_RANGE:
    return "K, first tree or count of the rank differ under the two tables";
  default:
    return refusal <= 33 ? "reserved: no call of this version gives it"
      : "no refusal of this library";
  }
}

/** A range of trees. */
typedef struct
{
  uint32_t            refusal;  /**< 0, or why the call declined. */
  uint32_t            first;    /**< The first tree. */
  uint32_t            count;    /**< The number of trees. */
}
vejgodat_range;

/** The sender of a tree. */
typedef struct
{
  uint32_t            refusal;  /**< 0, or why the call declined. */
  int32_t             sender;   /**< A rank; -1 where nobody sends. */
}
vejgodat_sender;

/** A set of ranks, whose list is in the buffer of the call. */
typedef struct
{
  uint32_t            refusal;  /**< 0, or why the call declined. */
  uint32_t            count;    /**< The number of ranks in the set. */
  int32_t             smallest; /**< The smallest; -1 for an empty set. */
  int32_t             largest;  /**< The largest; -2 for an empty set. */
}
vejgodat_ranks;

/** The length of an object in bytes. */
typedef struct
{
  uint32_t            refusal;  /**< 0, or why the call declined. */
  uint64_t            length;   /**< The number of bytes. */
}
vejgodat_length;

/** How many numbers were written. When refused, the count is 0. */
typedef struct
{
  uint32_t            refusal;  /**< 0, or why the call declined. */
  uint32_t            count;    /**< How many numbers were written. */
}
vejgodat_count;

/** The messages of one rank to all that it sends to, end to end. */
typedef struct
{
  uint32_t            refusal;  /**< 0, or why the call declined. */
  uint32_t            count;    /**< The number of messages. */
  uint64_t            length;   /**< The bytes of all of them together. */
}
vejgodat_many;

/** How far the assembly of a part has come. */
typedef struct
{
  uint32_t            refusal;  /**< 0, or why the call declined. */
  uint32_t            heard;    /**< How many senders are heard. */
  uint32_t            due;      /**< How many there are in the receive set. */
}
vejgodat_progress;

/** What the number `kind` of a \ref vejgodat_neighbour means. */
enum
{
  VEJGODAT_KIND_BOUNDARY = 0,   /**< The face is at the domain's boundary. */
  VEJGODAT_KIND_UNUSED = 1,     /**< The shape doesn't have this face. */
  VEJGODAT_KIND_LOCAL = 2,      /**< The neighbour is a tree of the part. */
  VEJGODAT_KIND_GHOST = 3       /**< The neighbour is a ghost of the part. */
};

/** What is across a face of a part's tree. */
typedef struct
{
  uint32_t            refusal;  /**< 0, or why the call declined. */
  uint32_t            shape;    /**< The shape of the tree itself. */
  uint32_t            kind;     /**< \ref VEJGODAT_KIND_BOUNDARY or one of the
                                     names that follow it. A refused call has
                                     0 here too: look at \a refusal first. */
  uint32_t            index;    /**< The neighbour's local index: below n for
                                     a tree, n plus its position for a ghost,
                                     the tree's own at the boundary, 0 where
                                     unused. */
  uint32_t            face;     /**< The neighbour's face: the face itself at
                                     the boundary, 0 where unused. */
  uint32_t            orientation; /**< The orientation: 0 at the boundary and
                                        where unused. */
}
vejgodat_neighbour;

/** What the number `which` of a \ref vejgodat_found means. */
enum
{
  VEJGODAT_FOUND_NONE = 0,      /**< No record has the number. */
  VEJGODAT_FOUND_TREE = 1,      /**< A tree record has it. */
  VEJGODAT_FOUND_GHOST = 2      /**< No tree record has it, and a ghost does. */
};

/** The place of a record. */
typedef struct
{
  uint32_t            which;    /**< Where it is: \ref VEJGODAT_FOUND_NONE or
                                     one of the names that follow it. */
  uint64_t            offset;   /**< The byte of the trees or of the ghosts at
                                     which it begins; 0 where there is none. */
}
vejgodat_found;

/** The version of the library linked: \ref VEJGODAT_VERSION of its own header.
 *
 * Checks: none.
 * Cost: constant.
 *
 * \return                10000 major + 100 minor + patch.
 */
uint32_t            vejgodat_version (void) VEJGODAT_USE_RESULT;

/** \name Offset tables
 * @{ */

/** Check whether bytes are a valid offset table.
 *
 * Checks, in this order: \ref VEJGODAT_RANKS (2) if \a table_len isn't
 * 8 (P + 1) for a P within its limits; \ref VEJGODAT_TABLE (3) if the entries
 * aren't those of a valid table.
 * Cost: one pass over the table, O(P); constant where it gives 2.
 *
 * \param [in] table      Any bytes. Not changed.
 * \param [in] table_len  The number of bytes.
 * \return                0 if the table is valid, else the refusal.
 */
uint32_t            vejgodat_check_table (const uint8_t * table,
                                          size_t table_len)
  VEJGODAT_USE_RESULT;

/** Compute the length of an offset table.
 *
 * Checks: \ref VEJGODAT_RANKS (2) if \a ranks is 0 or above
 * \ref VEJGODAT_MAX_RANKS.
 * Cost: constant.
 *
 * \param [in] ranks      The number of ranks P; any number.
 * \return                8 (P + 1), which \ref vejgodat_write_table and
 *                        \ref vejgodat_table_from_leaves need as buffer.
 */
vejgodat_length     vejgodat_table_length (uint32_t ranks)
  VEJGODAT_USE_RESULT;

/** Look up the range of trees of a rank.
 *
 * Checks, in this order: those of \ref vejgodat_check_table (2, 3);
 * \ref VEJGODAT_INDEX (5) if \a rank is not below P.
 * Cost: one pass over the table for its check, O(P).
 *
 * \param [in] table      Any bytes. Not changed.
 * \param [in] table_len  The number of bytes.
 * \param [in] rank       A rank; any number.
 * \return                The first tree of the rank and its count. For an
 *                        empty rank the count is 0, and the first tree is the
 *                        table's entry for the rank (K after the last tree).
 */
vejgodat_range      vejgodat_table_range (const uint8_t * table,
                                          size_t table_len, uint32_t rank)
  VEJGODAT_USE_RESULT;

/** Write the offset table of a partition.
 *
 * The partition is a first tree and a count for each rank. It has a table, and
 * then only one, if every rank that has trees begins no lower than the last
 * tree of any rank below it, and together they have every tree from 0 to
 * K - 1, where K is one past the last tree on any rank.
 *
 * Checks, in this order: \ref VEJGODAT_RANKS (2) if \a ranks isn't within P's
 * limits; \ref VEJGODAT_PARTITION (6) if one of the lists doesn't have P
 * entries, the partition has no table, or K isn't within its limits;
 * \ref VEJGODAT_BUFFER (22) if \a out_len is below 8 (P + 1).
 * Cost: O(P).
 *
 * \param [in] ranks      The number of ranks P; any number.
 * \param [in] first      The first tree of each rank; any numbers. The entry
 *                        of a rank with count 0 has no meaning. Not changed.
 * \param [in] first_len  The number of entries of \a first.
 * \param [in] count      The number of trees of each rank; any numbers. Not
 *                        changed.
 * \param [in] count_len  The number of entries of \a count.
 * \param [out] out       Its first 8 (P + 1) bytes become the table; the bytes
 *                        after them stay. When refused, all of them stay.
 * \param [in] out_len    The number of bytes of \a out.
 * \return                The bytes written, 8 (P + 1).
 */
vejgodat_length     vejgodat_write_table (uint32_t ranks,
                                          const uint32_t * first,
                                          size_t first_len,
                                          const uint32_t * count,
                                          size_t count_len,
                                          uint8_t * out, size_t out_len)
  VEJGODAT_USE_RESULT;

/** Write the offset table that divides the leaves evenly among the ranks.
 *
 * With N leaves in all, numbered tree by tree, rank p gets those from
 * ceil (N p / P) up to, but without, ceil (N (p + 1) / P). A tree is on rank
 * p exactly if one of these leaves is in it.
 *
 * This is not the partition of p4est, which rounds down: there rank p begins
 * with leaf floor (N p / P), and in general the tables differ. A solver that has
 * a forest, p4est's or another, takes the table from the forest's own partition:
 * the first tree and the number of trees of each rank, gathered over all ranks,
 * through \ref vejgodat_write_table. That is right however the forest rounds,
 * and after a partition by weights or for coarsening too.
 *
 * Checks, in this order: \ref VEJGODAT_RANKS (2) if \a ranks isn't within P's
 * limits; \ref VEJGODAT_PARTITION (6) if \a leaves_len isn't within K's limits
 * or a leaf count isn't from 1 to \ref VEJGODAT_MAX_LEAVES;
 * \ref VEJGODAT_BUFFER (22) if \a out_len is below 8 (P + 1).
 * Cost: O(K + P).
 *
 * \param [in] ranks      The number of ranks P; any number.
 * \param [in] leaves     The number of leaves of each tree; any numbers. Not
 *                        changed.
 * \param [in] leaves_len The number of entries, which is K.
 * \param [out] out       Its first 8 (P + 1) bytes become the table; the bytes
 *                        after them stay. When refused, all of them stay.
 * \param [in] out_len    The number of bytes of \a out.
 * \return                The bytes written, 8 (P + 1).
 */
vejgodat_length     vejgodat_table_from_leaves (uint32_t ranks,
                                                const uint32_t * leaves,
                                                size_t leaves_len,
                                                uint8_t * out,
                                                size_t out_len)
  VEJGODAT_USE_RESULT;

/** @} */

/** \name Who sends
 *
 * The old table has the ranges f and the new one f'. For a tree k in f'(q), the
 * sender of k to q is q itself if k is in f(q), else the rank p with k in f(p)
 * that differs least from q, the lower of two at equal distance. A rank may thus
 * send to itself: it keeps the tree. Messages and areas of a release in which
 * the smallest such rank sent must not be mixed with those of this one in an
 * epoch; such an area gets 10 where it isn't sound by this rule.
 *
 * Every call below takes both tables and checks, in this order:
 * \ref VEJGODAT_RANKS (2) for either table, \ref VEJGODAT_TABLE (3) for either,
 * \ref VEJGODAT_DIFFER (4) if they differ in P or in K, \ref VEJGODAT_INDEX (5)
 * for every rank and tree given; those with a buffer then check
 * \ref VEJGODAT_BUFFER (22).
 * @{ */

/** Find the rank that sends a tree to a receiver.
 *
 * Checks, in this order: 2, 3, 4 as above; 5 if \a tree is not below K or
 * \a receiver not below P.
 * Cost: O(P): the check of the tables, then a walk outward from the receiver to
 * the nearest rank that has the tree.
 *
 * \param [in] old_table  The old table; any bytes. Not changed.
 * \param [in] old_len    The number of its bytes.
 * \param [in] new_table  The new table; any bytes. Not changed.
 * \param [in] new_len    The number of its bytes.
 * \param [in] tree       A tree k; any number.
 * \param [in] receiver   A rank q; any number.
 * \return                The sender of k to q, or -1 where k isn't in f'(q).
 */
vejgodat_sender     vejgodat_sender_of (const uint8_t * old_table,
                                        size_t old_len,
                                        const uint8_t * new_table,
                                        size_t new_len,
                                        uint32_t tree, uint32_t receiver)
  VEJGODAT_USE_RESULT;

/** Find the trees that one rank sends to another. They are one range.
 *
 * Checks, in this order: 2, 3, 4 as above; 5 if \a sender or \a receiver is
 * not below P.
 * Cost: O(P): the check of the tables, then a walk from the sender to the nearest
 * ranks with trees on either side.
 *
 * \param [in] old_table  The old table; any bytes. Not changed.
 * \param [in] old_len    The number of its bytes.
 * \param [in] new_table  The new table; any bytes. Not changed.
 * \param [in] new_len    The number of its bytes.
 * \param [in] sender     A rank p; any number.
 * \param [in] receiver   A rank q; any number.
 * \return                The first tree that p sends to q and how many there
 *                        are; both 0 where there are none.
 */
vejgodat_range      vejgodat_trees_sent (const uint8_t * old_table,
                                         size_t old_len,
                                         const uint8_t * new_table,
                                         size_t new_len,
                                         uint32_t sender, uint32_t receiver)
  VEJGODAT_USE_RESULT;

/** List the ranks to which a rank sends a tree.
 *
 * The rank itself is listed where it keeps a tree. A set never has more than P
 * ranks, so a buffer of P entries is never too short.
 *
 * Checks, in this order: 2, 3, 4 as above; 5 if \a rank is not below P; 22 if
 * \a out_len is below the number of ranks in the set.
 * Cost: O(P).
 *
 * \param [in] old_table  The old table; any bytes. Not changed.
 * \param [in] old_len    The number of its bytes.
 * \param [in] new_table  The new table; any bytes. Not changed.
 * \param [in] new_len    The number of its bytes.
 * \param [in] rank       The sending rank p; any number.
 * \param [out] out       Its first entries become the ranks of the set,
 *                        ascending; the entries after them stay. When
 *                        refused, all of them stay.
 * \param [in] out_len    The number of entries, not bytes, of \a out.
 * \return                The number of ranks, the smallest and the largest;
 *                        0, -1 and -2 for an empty set.
 */
vejgodat_ranks      vejgodat_send_set (const uint8_t * old_table,
                                       size_t old_len,
                                       const uint8_t * new_table,
                                       size_t new_len,
                                       uint32_t rank,
                                       uint32_t * out, size_t out_len)
  VEJGODAT_USE_RESULT;

/** List the ranks from which a rank gets a tree.
 *
 * As \ref vejgodat_send_set, seen from the other side: p is in the receive set
 * of q exactly if q is in the send set of p.
 *
 * Checks, in this order: 2, 3, 4 as above; 5 if \a rank is not below P; 22 if
 * \a out_len is below the number of ranks in the set.
 * Cost: O(P).
 *
 * \param [in] old_table  The old table; any bytes. Not changed.
 * \param [in] old_len    The number of its bytes.
 * \param [in] new_table  The new table; any bytes. Not changed.
 * \param [in] new_len    The number of its bytes.
 * \param [in] rank       The receiving rank q; any number.
 * \param [out] out       Its first entries become the ranks of the set,
 *                        ascending; the entries after them stay. When
 *                        refused, all of them stay.
 * \param [in] out_len    The number of entries, not bytes, of \a out.
 * \return                The number of ranks, the smallest and the largest;
 *                        0, -1 and -2 for an empty set.
 */
vejgodat_ranks      vejgodat_receive_set (const uint8_t * old_table,
                                          size_t old_len,
                                          const uint8_t * new_table,
                                          size_t new_len,
                                          uint32_t rank,
                                          uint32_t * out, size_t out_len)
  VEJGODAT_USE_RESULT;

/** @} */

/** \name Whole meshes
 * @{ */

/** The number of corners of a face, worked out from the shape and the face.
 *
 * Checks: none. Any other shape or face has 0 corners.
 * Cost: constant.
 *
 * \param [in] shape      A shape, 0 to 5, or any other number.
 * \param [in] face       A face of it, or any other number.
 * \return                2, 3 or 4, and 0 for a face that isn't there.
 */
uint32_t            vejgodat_corners (uint32_t shape, uint32_t face)
  VEJGODAT_USE_RESULT;

/** Check whether bytes are a sound whole mesh.
 *
 * The layout and what makes it sound are above, under Whole meshes.
 *
 * Checks: \ref VEJGODAT_MESH (7) if the mesh isn't sound, for whatever reason;
 * a length that isn't 8 + 64 K for the K at its beginning is one.
 * Cost: one pass over the records, which looks for each link at the neighbour
 * from one of its ends: O(F K). Constant where dimension, K or length is wrong.
 *
 * \param [in] mesh       Any bytes. Not changed.
 * \param [in] mesh_len   The number of bytes.
 * \return                0 if the mesh is sound, else the refusal.
 */
uint32_t            vejgodat_check_mesh (const uint8_t * mesh,
                                         size_t mesh_len)
  VEJGODAT_USE_RESULT;

/** Compute the length of the mesh of a brick, see \ref vejgodat_write_brick.
 *
 * Checks: \ref VEJGODAT_EXTENT (26) if an extent isn't from 1 to
 * \ref VEJGODAT_MAX_EXTENT.
 * Cost: constant.
 *
 * \param [in] a          The number of trees on the first axis; any number.
 * \param [in] b          On the second axis.
 * \param [in] c          On the third axis.
 * \return                8 + 64 a b c, which \ref vejgodat_write_brick needs as
 *                        buffer.
 */
vejgodat_length     vejgodat_brick_length (uint32_t a, uint32_t b, uint32_t c)
  VEJGODAT_USE_RESULT;

/** Write the whole mesh of a brick of a by b by c hexahedra.
 *
 * Tree numbers run along the first axis fastest: the tree at x, y, z has the
 * number x + a (y + b z). Faces 0 and 1 are low and high on the first axis, 2
 * and 3 on the second, 4 and 5 on the third. Across a face stands the next tree
 * on its axis, with its opposite face; at an end, the boundary or, on a periodic
 * axis, the tree at the other end. So on a periodic axis of extent 1 a tree is
 * its own neighbour across two faces, and on one of extent 2 two trees meet
 * twice. Orientations and regions are 0, and tree data is zero. The mesh is
 * sound.
 *
 * Checks, in this order: \ref VEJGODAT_EXTENT (26) as
 * \ref vejgodat_brick_length, before anything else; \ref VEJGODAT_BUFFER (22)
 * if \a out_len is below 8 + 64 a b c.
 * Cost: O(a b c), one pass over the bytes that are written.
 *
 * \param [in] a          The number of trees on the first axis; any number.
 * \param [in] b          On the second axis.
 * \param [in] c          On the third axis.
 * \param [in] periodic_a Whether the first axis is periodic: 0 is no, any other
 *                        number yes.
 * \param [in] periodic_b Whether the second axis is.
 * \param [in] periodic_c Whether the third axis is.
 * \param [out] out       Its first bytes become the mesh; the bytes after them
 *                        stay. When refused, all of them stay.
 * \param [in] out_len    The number of bytes of \a out.
 * \return                The bytes written, 8 + 64 a b c.
 */
vejgodat_length     vejgodat_write_brick (uint32_t a, uint32_t b, uint32_t c,
                                          uint32_t periodic_a,
                                          uint32_t periodic_b,
                                          uint32_t periodic_c,
                                          uint8_t * out, size_t out_len)
  VEJGODAT_USE_RESULT;

/** @} */

/** \name Parts
 *
 * The layout, local indices and what makes a part sound are above, under Parts.
 * @{ */

/** Compute the length of a rank's part of a mesh.
 *
 * Checks, in this order: those of \ref vejgodat_check_table (2, 3);
 * \ref VEJGODAT_INDEX (5) if \a rank is not below P; \ref VEJGODAT_MESH (7) if
 * the mesh isn't sound or its K isn't the table's.
 * Cost: O(P) for the check of the table; O(F K) for the check of the mesh; then
 * O(F n) for the rank's trees, whose neighbours are marked, and one pass over
 * K / 8 bytes of a set on the stack, which counts the ghosts.
 *
 * \param [in] mesh       A whole mesh; any bytes. Not changed.
 * \param [in] mesh_len   The number of its bytes.
 * \param [in] table      Any bytes. Not changed.
 * \param [in] table_len  The number of its bytes.
 * \param [in] rank       A rank; any number.
 * \return                32 + 64 n + 40 g, which \ref vejgodat_cut_part needs
 *                        as buffer.
 */
vejgodat_length     vejgodat_part_length (const uint8_t * mesh,
                                          size_t mesh_len,
                                          const uint8_t * table,
                                          size_t table_len, uint32_t rank)
  VEJGODAT_USE_RESULT;

/** Cut a rank's part out of a mesh.
 *
 * Links are renamed to local indices; every other byte of a record is copied,
 * tree data included. The part is sound for the table and the rank. \a out must
 * not overlap \a mesh or \a table: no call can see that, and what it writes
 * would be garbage, without a refusal.
 *
 * Checks, in this order: 2, 3, 5 and 7 as \ref vejgodat_part_length;
 * \ref VEJGODAT_BUFFER (22) if \a out_len is below the length of the part. A
 * buffer of 32 + 64 K bytes is never too short.
 * Cost: O(P) for the check of the table; O(F K) for the check of the mesh; then
 * O(F n + g) for the rank's trees, read twice, and its ghosts, and two passes
 * over K / 8 bytes of a set on the stack, in which a ghost is looked up in
 * constant time.
 *
 * \param [in] mesh       A whole mesh; any bytes. Not changed.
 * \param [in] mesh_len   The number of its bytes.
 * \param [in] table      Any bytes. Not changed.
 * \param [in] table_len  The number of its bytes.
 * \param [in] rank       A rank; any number.
 * \param [out] out       Its first bytes become the part; the bytes after them
 *                        stay. When refused, all of them stay.
 * \param [in] out_len    The number of bytes of \a out.
 * \return                The bytes written, 32 + 64 n + 40 g.
 */
vejgodat_length     vejgodat_cut_part (const uint8_t * mesh, size_t mesh_len,
                                       const uint8_t * table,
                                       size_t table_len, uint32_t rank,
                                       uint8_t * out, size_t out_len)
  VEJGODAT_USE_RESULT;

/** Check whether bytes are a sound part for a table and a rank.
 *
 * Checks, in this order: those of \ref vejgodat_check_table (2, 3);
 * \ref VEJGODAT_INDEX (5) if \a rank is not below P; \ref VEJGODAT_PART (8) if
 * the part isn't sound, for whatever reason.
 * Cost: O(P) for the check of the table; then O(F (n + g) + K / 64), since a
 * ghost's neighbours are looked up in a set of the ghosts. Constant after
 * the table where header or length is wrong.
 *
 * \param [in] part       Any bytes. Not changed.
 * \param [in] part_len   The number of its bytes.
 * \param [in] table      Any bytes. Not changed.
 * \param [in] table_len  The number of its bytes.
 * \param [in] rank       A rank; any number.
 * \return                0 if the part is sound, else the refusal.
 */
uint32_t            vejgodat_check_part (const uint8_t * part,
                                         size_t part_len,
                                         const uint8_t * table,
                                         size_t table_len, uint32_t rank)
  VEJGODAT_USE_RESULT;

/** Find what is across a face of a part's tree.
 *
 * Checks, in this order: those of \ref vejgodat_check_table (2, 3);
 * \ref VEJGODAT_INDEX (5) if \a rank is not below P, \a local not below the
 * table's count of trees for the rank, or \a face not below 6, also where the
 * shape has fewer faces; \ref VEJGODAT_PART (8) if the part isn't sound.
 * Cost: that of \ref vejgodat_check_part, since each call checks the whole part
 * anew; the answer itself takes constant time.
 *
 * \param [in] part       Any bytes. Not changed.
 * \param [in] part_len   The number of its bytes.
 * \param [in] table      Any bytes. Not changed.
 * \param [in] table_len  The number of its bytes.
 * \param [in] rank       A rank; any number.
 * \param [in] local      The local index of a tree, from 0; any number.
 * \param [in] face       A face, 0 to 5; any number. One that the tree's shape
 *                        doesn't have is accepted, and unused.
 * \return                The tree's shape, and what is across its face.
 */
vejgodat_neighbour  vejgodat_neighbour_of (const uint8_t * part,
                                           size_t part_len,
                                           const uint8_t * table,
                                           size_t table_len, uint32_t rank,
                                           uint32_t local, uint32_t face)
  VEJGODAT_USE_RESULT;

/** Find a record by its global number.
 *
 * The records may be those of a part with n trees and g ghosts: the trees are
 * its 64 n bytes from 32 on, the ghosts its 40 g bytes from 32 + 64 n on. But
 * any bytes will do; of a record its number is read and nothing else, and a
 * tail that is shorter than a record isn't read at all.
 *
 * Checks: none.
 * Cost: one pass over the records up to the one found, O(n + g).
 *
 * \param [in] trees      Tree records of 64 bytes; any bytes. Not changed.
 * \param [in] trees_len  The number of bytes, not records.
 * \param [in] ghosts     Core records of 40 bytes; any bytes. Not changed.
 * \param [in] ghosts_len The number of bytes, not records.
 * \param [in] number     A global number; any number.
 * \return                The place of the first tree record with that number;
 *                        if there is none, of the first ghost with it. The
 *                        whole record is in the bytes given: 64 bytes of
 *                        \a trees or 40 of \a ghosts from the offset on.
 */
vejgodat_found      vejgodat_lookup (const uint8_t * trees, size_t trees_len,
                                     const uint8_t * ghosts,
                                     size_t ghosts_len, uint32_t number)
  VEJGODAT_USE_RESULT;

/** @} */

/** \name Reading a sound part
 *
 * Each of these reads or writes one thing and checks nothing: the part
 * must be one that \ref vejgodat_cut_part or \ref vejgodat_close_area wrote or
 * \ref vejgodat_check_part accepted, which a caller learns once and not at each
 * face. With n trees and g ghosts, an index below n is a tree, n + j is ghost j,
 * and a face is below 4 in dimension 2 and below 6 in dimension 3.
 *
 * The tree data of a part may be written at any time, at
 * \ref vejgodat_part_writable_data; the part stays sound. A tree on several
 * ranks has its data on each of them, and a message takes its sender's.
 * @{ */

/** Read four little-endian bytes at any address. */
VEJGODAT_INLINE uint32_t
vejgodat_number_at (const uint8_t * bytes)
{
  return (uint32_t) bytes[0] | (uint32_t) bytes[1] << 8
    | (uint32_t) bytes[2] << 16 | (uint32_t) bytes[3] << 24;
}

/** Write four little-endian bytes at any address. */
VEJGODAT_INLINE void
vejgodat_put_number (uint8_t * bytes, uint32_t number)
{
  bytes[0] = (uint8_t) (number & 255);
  bytes[1] = (uint8_t) (number >> 8 & 255);
  bytes[2] = (uint8_t) (number >> 16 & 255);
  bytes[3] = (uint8_t) (number >> 24);
}

/** Read the region of a record, be it one of a mesh, a part or a message: the
 * two bytes at 38. */
VEJGODAT_INLINE uint32_t
vejgodat_region_at (const uint8_t * record)
{
  return (uint32_t) record[38] | (uint32_t) record[39] << 8;
}

/** Write the region of a record. What holds the record stays sound if the
 * region is below \ref VEJGODAT_REGIONS. */
VEJGODAT_INLINE void
vejgodat_put_region (uint8_t * record, uint32_t region)
{
  record[38] = (uint8_t) (region & 255);
  record[39] = (uint8_t) (region >> 8 & 255);
}

/** The dimension, 2 or 3. */
VEJGODAT_INLINE uint32_t
vejgodat_part_dimension (const uint8_t * part)
{
  return vejgodat_number_at (part);
}

/** The number of trees of the whole mesh, K. */
VEJGODAT_INLINE uint32_t
vejgodat_part_K (const uint8_t * part)
{
  return vejgodat_number_at (part + 4);
}

/** The number of ranks of the table, P. */
VEJGODAT_INLINE uint32_t
vejgodat_part_ranks (const uint8_t * part)
{
  return vejgodat_number_at (part + 8);
}

/** The rank whose part it is. */
VEJGODAT_INLINE uint32_t
vejgodat_part_rank (const uint8_t * part)
{
  return vejgodat_number_at (part + 12);
}

/** The global number of the part's first tree. */
VEJGODAT_INLINE uint32_t
vejgodat_part_first (const uint8_t * part)
{
  return vejgodat_number_at (part + 16);
}

/** The number of trees, n. */
VEJGODAT_INLINE uint32_t
vejgodat_part_trees (const uint8_t * part)
{
  return vejgodat_number_at (part + 20);
}

/** The number of ghosts, g. */
VEJGODAT_INLINE uint32_t
vejgodat_part_ghosts (const uint8_t * part)
{
  return vejgodat_number_at (part + 24);
}

/** The byte at which the record of tree or ghost \a index begins. */
VEJGODAT_INLINE size_t
vejgodat_part_place (const uint8_t * part, uint32_t index)
{
  const uint32_t      n = vejgodat_part_trees (part);

  return index < n ? VEJGODAT_PART_BYTES (index, 0)
    : VEJGODAT_PART_BYTES (n, index - n);
}

/** The global number of tree or ghost \a index. */
VEJGODAT_INLINE uint32_t
vejgodat_part_number (const uint8_t * part, uint32_t index)
{
  return vejgodat_number_at (part + vejgodat_part_place (part, index));
}

/** The shape of tree or ghost \a index, 0 to 5. */
VEJGODAT_INLINE uint32_t
vejgodat_part_shape (const uint8_t * part, uint32_t index)
{
  return part[vejgodat_part_place (part, index) + 4];
}

/** What tree or ghost \a index meets at a face: of a tree the local index of a
 * tree or a ghost, its own at the boundary; of a ghost a global number; and
 * \ref VEJGODAT_UNUSED where the shape doesn't have the face. A tree may also
 * meet itself elsewhere than at the boundary, at another face, so ask
 * \ref vejgodat_part_kind and don't compare with \a index. */
VEJGODAT_INLINE uint32_t
vejgodat_part_neighbour (const uint8_t * part, uint32_t index, uint32_t face)
{
  return vejgodat_number_at (part + vejgodat_part_place (part, index) + 8
                             + 4 * (size_t) face);
}

/** The neighbour's face that face \a face of \a index meets; 0 where unused. */
VEJGODAT_INLINE uint32_t
vejgodat_part_face (const uint8_t * part, uint32_t index, uint32_t face)
{
  return part[vejgodat_part_place (part, index) + 32 + face]
    % (vejgodat_part_dimension (part) == 2 ? 4u : 6u);
}

/** The orientation at a face; 0 at the boundary and where unused. */
VEJGODAT_INLINE uint32_t
vejgodat_part_orientation (const uint8_t * part, uint32_t index,
                           uint32_t face)
{
  return part[vejgodat_part_place (part, index) + 32 + face]
    / (vejgodat_part_dimension (part) == 2 ? 4u : 6u);
}

/** What is across a face of tree \a index, below n: \ref VEJGODAT_KIND_BOUNDARY
 * (0) or one of the names that follow it, as \ref vejgodat_neighbour_of gives
 * it. For every face below 6 the exact test is, in this order:
 *
 *  - unused (1) if the neighbour is \ref VEJGODAT_UNUSED;
 *  - boundary (0) if the neighbour is \a index and the face code is \a face;
 *  - a tree of the part (2) if the neighbour is below n, \a index included: on a
 *    periodic axis of extent 1 a tree meets itself at its opposite face;
 *  - a ghost (3) else. */
VEJGODAT_INLINE uint32_t
vejgodat_part_kind (const uint8_t * part, uint32_t index, uint32_t face)
{
  const uint32_t      neighbour = vejgodat_part_neighbour (part, index, face);

  return neighbour == VEJGODAT_UNUSED ? VEJGODAT_KIND_UNUSED
    : neighbour == index
    && part[vejgodat_part_place (part, index) + 32 + face] == face
    ? VEJGODAT_KIND_BOUNDARY
    : neighbour < vejgodat_part_trees (part) ? VEJGODAT_KIND_LOCAL
    : VEJGODAT_KIND_GHOST;
}

/** The 24 bytes of data of tree \a index, below n: ghosts have none. */
VEJGODAT_INLINE const uint8_t *
vejgodat_part_data (const uint8_t * part, uint32_t index)
{
  return part + vejgodat_part_place (part, index) + 40;
}

/** The same 24 bytes, to be written: the part stays sound whatever they are. */
VEJGODAT_INLINE uint8_t *
vejgodat_part_writable_data (uint8_t * part, uint32_t index)
{
  return part + vejgodat_part_place (part, index) + 40;
}

/** The region of tree or ghost \a index, below \ref VEJGODAT_REGIONS. */
VEJGODAT_INLINE uint32_t
vejgodat_part_region (const uint8_t * part, uint32_t index)
{
  return vejgodat_region_at (part + vejgodat_part_place (part, index));
}

/** Write the region of tree or ghost \a index. The part stays sound if it is
 * below \ref VEJGODAT_REGIONS. Other ranks that hold the tree, as a ghost too,
 * don't learn of it: set it there as well, or the parts are no longer those of
 * one mesh. */
VEJGODAT_INLINE void
vejgodat_part_set_region (uint8_t * part, uint32_t index, uint32_t region)
{
  vejgodat_put_region (part + vejgodat_part_place (part, index), region);
}

/** @} */

/** \name Reading and making a whole mesh
 *
 * A mesh is made in memory of \ref VEJGODAT_MESH_BYTES (K) bytes, which may hold
 * anything before: first its header (\ref vejgodat_mesh_set_header), then every
 * tree (\ref vejgodat_mesh_set_tree), then each link once
 * (\ref vejgodat_mesh_set_link); regions and tree data at any time after their
 * tree. The record of tree k is at \ref VEJGODAT_MESH_BYTES (k).
 *
 * Nothing is checked here. The memory must be there: a tree is below K, and a
 * face below 6. Whether the mesh is sound is for \ref vejgodat_check_mesh to
 * say, or for \ref vejgodat_mesh_fault.
 * @{ */

/** The dimension, 2 or 3, of a mesh of 8 bytes or more. */
VEJGODAT_INLINE uint32_t
vejgodat_mesh_dimension (const uint8_t * mesh)
{
  return vejgodat_number_at (mesh);
}

/** The number of trees, K, of a mesh of 8 bytes or more. */
VEJGODAT_INLINE uint32_t
vejgodat_mesh_trees (const uint8_t * mesh)
{
  return vejgodat_number_at (mesh + 4);
}

/** The region of a tree, below \ref VEJGODAT_REGIONS in a sound mesh. */
VEJGODAT_INLINE uint32_t
vejgodat_mesh_region (const uint8_t * mesh, uint32_t tree)
{
  return vejgodat_region_at (mesh + VEJGODAT_MESH_BYTES (tree));
}

/** The 24 bytes of data of a tree. */
VEJGODAT_INLINE const uint8_t *
vejgodat_mesh_data (const uint8_t * mesh, uint32_t tree)
{
  return mesh + VEJGODAT_MESH_BYTES (tree) + 40;
}

/** The same 24 bytes, to be written: a mesh stays sound whatever they are. */
VEJGODAT_INLINE uint8_t *
vejgodat_mesh_writable_data (uint8_t * mesh, uint32_t tree)
{
  return mesh + VEJGODAT_MESH_BYTES (tree) + 40;
}

/** Write the header of a mesh: its dimension and its number of trees. */
VEJGODAT_INLINE void
vejgodat_mesh_set_header (uint8_t * mesh, uint32_t dimension, uint32_t trees)
{
  vejgodat_put_number (mesh, dimension);
  vejgodat_put_number (mesh + 4, trees);
}

/** Write the whole record of a tree that meets no other: its number and shape,
 * the boundary at each face that the shape has (\ref vejgodat_corners knows
 * which), the mark of an unused face at the others, region 0, tree data zero. */
VEJGODAT_INLINE void
vejgodat_mesh_set_tree (uint8_t * mesh, uint32_t tree, uint32_t shape)
{
  uint8_t            *record = mesh + VEJGODAT_MESH_BYTES (tree);
  uint32_t            i, used;

  for (i = 0; i < 64; ++i) {
    record[i] = 0;
  }
  vejgodat_put_number (record, tree);
  record[4] = (uint8_t) (shape & 255);
  for (i = 0; i < 6; ++i) {
    used = vejgodat_corners (shape, i) > 0;
    vejgodat_put_number (record + 8 + 4 * i, used ? tree : VEJGODAT_UNUSED);
    record[32 + i] = (uint8_t) (used ? i : 0);
  }
}

/** Write the region of a tree, below \ref VEJGODAT_REGIONS. */
VEJGODAT_INLINE void
vejgodat_mesh_set_region (uint8_t * mesh, uint32_t tree, uint32_t region)
{
  vejgodat_put_region (mesh + VEJGODAT_MESH_BYTES (tree), region);
}

/** Link a face of one tree with a face of another, or of the same: writes both
 * ends, with the same orientation. Relies on the dimension in the mesh's header,
 * which decides the face codes. A third face that was linked with one of these
 * two still names it, and needs another link or the boundary. */
VEJGODAT_INLINE void
vejgodat_mesh_set_link (uint8_t * mesh, uint32_t tree, uint32_t face,
                        uint32_t neighbour, uint32_t neighbour_face,
                        uint32_t orientation)
{
  const uint32_t      turned =
    orientation * (vejgodat_mesh_dimension (mesh) == 2 ? 4u : 6u);
  uint8_t            *one = mesh + VEJGODAT_MESH_BYTES (tree);
  uint8_t            *other = mesh + VEJGODAT_MESH_BYTES (neighbour);

  vejgodat_put_number (one + 8 + 4 * (size_t) face, neighbour);
  one[32 + face] = (uint8_t) ((turned + neighbour_face) & 255);
  vejgodat_put_number (other + 8 + 4 * (size_t) neighbour_face, tree);
  other[32 + neighbour_face] = (uint8_t) ((turned + face) & 255);
}

/** Put a face at the boundary. The face that it was linked with, if any, needs
 * another link or the boundary, too. */
VEJGODAT_INLINE void
vejgodat_mesh_set_boundary (uint8_t * mesh, uint32_t tree, uint32_t face)
{
  vejgodat_mesh_set_link (mesh, tree, face, tree, face, 0);
}

/** @} */

/** \name Messages
 *
 * The layout and the rule of who sends which ghost are above, under Messages.
 * @{ */

/** Check whether bytes are a message in layout.
 *
 * Checks: \ref VEJGODAT_LAYOUT (11) if the message isn't in layout, for
 * whatever reason.
 * Cost: one pass over the records, O(F (n + g)). Constant where dimension or
 * length is wrong.
 *
 * \param [in] message     Any bytes. Not changed.
 * \param [in] message_len The number of bytes.
 * \return                 0 if the message is in layout, else the refusal.
 */
uint32_t            vejgodat_check_message (const uint8_t * message,
                                            size_t message_len)
  VEJGODAT_USE_RESULT;

/** Compute the length of the message from one rank to another.
 *
 * Checks, in this order: 2, 3 and 4 as under Who sends; \ref VEJGODAT_INDEX (5)
 * if \a sender or \a receiver is not below P; \ref VEJGODAT_PART (8) if the part
 * isn't sound for the old table and the sender; \ref VEJGODAT_NOTHING (9) if the
 * sender sends the receiver no tree.
 * Cost: O(P) for the check of the tables and that of \ref vejgodat_check_part;
 * then the trees sent and their neighbours, and one pass over a set of 128 KiB
 * on the stack.
 *
 * \param [in] part       The part of \a sender under the old table; any bytes.
 *                        Not changed.
 * \param [in] part_len   The number of its bytes.
 * \param [in] old_table  The old table; any bytes. Not changed.
 * \param [in] old_len    The number of its bytes.
 * \param [in] new_table  The new table; any bytes. Not changed.
 * \param [in] new_len    The number of its bytes.
 * \param [in] sender     A rank p; any number.
 * \param [in] receiver   A rank q; any number.
 * \return                32 + 64 n + 40 g, which \ref vejgodat_build_message
 *                        needs as buffer.
 */
vejgodat_length     vejgodat_message_length (const uint8_t * part,
                                             size_t part_len,
                                             const uint8_t * old_table,
                                             size_t old_len,
                                             const uint8_t * new_table,
                                             size_t new_len,
                                             uint32_t sender,
                                             uint32_t receiver)
  VEJGODAT_USE_RESULT;

/** Build the message from one rank to another.
 *
 * The message has the trees that the sender sends to the receiver, with their
 * data, and the ghosts that the rule above gives to this sender. It is in
 * layout. A rank builds one for itself too if it keeps a tree.
 *
 * Checks, in this order: 2, 3, 4, 5, 8 and 9 as \ref vejgodat_message_length;
 * \ref VEJGODAT_BUFFER (22) if \a out_len is below the length of the message.
 * Cost: that of \ref vejgodat_message_length, and the bytes written.
 *
 * \param [in] part       The part of \a sender under the old table; any bytes.
 *                        Not changed.
 * \param [in] part_len   The number of its bytes.
 * \param [in] old_table  The old table; any bytes. Not changed.
 * \param [in] old_len    The number of its bytes.
 * \param [in] new_table  The new table; any bytes. Not changed.
 * \param [in] new_len    The number of its bytes.
 * \param [in] sender     A rank p; any number.
 * \param [in] receiver   A rank q; any number.
 * \param [in] epoch      Any number, the same for all messages of one move.
 * \param [out] out       Its first bytes become the message; the bytes after
 *                        them stay. When refused, all of them stay.
 * \param [in] out_len    The number of bytes of \a out.
 * \return                The bytes written, 32 + 64 n + 40 g.
 */
vejgodat_length     vejgodat_build_message (const uint8_t * part,
                                            size_t part_len,
                                            const uint8_t * old_table,
                                            size_t old_len,
                                            const uint8_t * new_table,
                                            size_t new_len,
                                            uint32_t sender,
                                            uint32_t receiver,
                                            uint32_t epoch,
                                            uint8_t * out, size_t out_len)
  VEJGODAT_USE_RESULT;

/** Compute how many messages a rank has to build, and their length in all.
 *
 * Checks, in this order: 2, 3 and 4 as under Who sends; \ref VEJGODAT_INDEX (5)
 * if \a sender is not below P; \ref VEJGODAT_PART (8) if the part isn't sound
 * for the old table and the sender. A rank that sends nothing has no message,
 * and that is no refusal.
 * Cost: O(P) for the check of the tables and that of
 * \ref vejgodat_check_part, once; then for each rank whose new range may meet
 * the sender's old one a test, and for each message its trees and their
 * neighbours, and K / 8 bytes of a set of 128 KiB on the stack.
 *
 * \param [in] part       The part of \a sender under the old table; any bytes.
 *                        Not changed.
 * \param [in] part_len   The number of its bytes.
 * \param [in] old_table  The old table; any bytes. Not changed.
 * \param [in] old_len    The number of its bytes.
 * \param [in] new_table  The new table; any bytes. Not changed.
 * \param [in] new_len    The number of its bytes.
 * \param [in] sender     A rank p; any number.
 * \return                The size of the send set of p, and the bytes that
 *                        \ref vejgodat_build_all needs as buffer.
 */
vejgodat_many       vejgodat_build_all_length (const uint8_t * part,
                                               size_t part_len,
                                               const uint8_t * old_table,
                                               size_t old_len,
                                               const uint8_t * new_table,
                                               size_t new_len,
                                               uint32_t sender)
  VEJGODAT_USE_RESULT;

/** Build the messages from one rank to all that it sends to.
 *
 * They are those of \ref vejgodat_build_message to each rank of the send set,
 * that to the sender itself among them if it keeps a tree, ascending by
 * receiver and end to end. The part is checked once.
 * \ref vejgodat_next_message walks over them.
 *
 * Checks, in this order: 2, 3, 4, 5 and 8 as \ref vejgodat_build_all_length;
 * \ref VEJGODAT_BUFFER (22) if \a out_len is below the length of all messages.
 * Cost: that of \ref vejgodat_build_all_length, whose marks are made twice, and
 * the bytes written.
 *
 * \param [in] part       The part of \a sender under the old table; any bytes.
 *                        Not changed.
 * \param [in] part_len   The number of its bytes.
 * \param [in] old_table  The old table; any bytes. Not changed.
 * \param [in] old_len    The number of its bytes.
 * \param [in] new_table  The new table; any bytes. Not changed.
 * \param [in] new_len    The number of its bytes.
 * \param [in] sender     A rank p; any number.
 * \param [in] epoch      Any number, the same for all messages of one move.
 * \param [out] out       Its first bytes become the messages; the bytes after
 *                        them stay. When refused, all of them stay.
 * \param [in] out_len    The number of bytes of \a out.
 * \return                The number of messages, and the bytes written.
 */
vejgodat_many       vejgodat_build_all (const uint8_t * part,
                                        size_t part_len,
                                        const uint8_t * old_table,
                                        size_t old_len,
                                        const uint8_t * new_table,
                                        size_t new_len,
                                        uint32_t sender,
                                        uint32_t epoch,
                                        uint8_t * out, size_t out_len)
  VEJGODAT_USE_RESULT;

/** @} */

/** \name Reading a message's header
 *
 * Each of these reads from the first 32 bytes of a message, which must be there,
 * and checks nothing: it may be asked of any 32 bytes, but the numbers mean what
 * they say only in a message that \ref vejgodat_build_message or
 * \ref vejgodat_build_all wrote or \ref vejgodat_check_message accepted.
 * @{ */

/** The epoch. */
VEJGODAT_INLINE uint32_t
vejgodat_message_epoch (const uint8_t * message)
{
  return vejgodat_number_at (message);
}

/** The dimension, 2 or 3. */
VEJGODAT_INLINE uint32_t
vejgodat_message_dimension (const uint8_t * message)
{
  return vejgodat_number_at (message + 4);
}

/** The number of trees of the whole mesh, K. */
VEJGODAT_INLINE uint32_t
vejgodat_message_K (const uint8_t * message)
{
  return vejgodat_number_at (message + 8);
}

/** The number of ranks of the tables, P. */
VEJGODAT_INLINE uint32_t
vejgodat_message_ranks (const uint8_t * message)
{
  return vejgodat_number_at (message + 12);
}

/** The rank that sends it. */
VEJGODAT_INLINE uint32_t
vejgodat_message_sender (const uint8_t * message)
{
  return vejgodat_number_at (message + 16);
}

/** The rank that it is for. */
VEJGODAT_INLINE uint32_t
vejgodat_message_receiver (const uint8_t * message)
{
  return vejgodat_number_at (message + 20);
}

/** The number of trees in it, n. */
VEJGODAT_INLINE uint32_t
vejgodat_message_trees (const uint8_t * message)
{
  return vejgodat_number_at (message + 24);
}

/** The number of ghosts in it, g. */
VEJGODAT_INLINE uint32_t
vejgodat_message_ghosts (const uint8_t * message)
{
  return vejgodat_number_at (message + 28);
}

/** How long it is by its header: 32 + 64 n + 40 g bytes. */
VEJGODAT_INLINE uint64_t
vejgodat_message_bytes (const uint8_t * message)
{
  return 32 + 64 * (uint64_t) vejgodat_message_trees (message)
    + 40 * (uint64_t) vejgodat_message_ghosts (message);
}

/** Walk over messages that stand end to end, as \ref vejgodat_build_all writes
 * them:
 *
 *     at = 0;
 *     while ((message = vejgodat_next_message (all, all_len, &at)) != NULL)
 *
 * Any bytes may be walked over: none past their end is read, and each message
 * given stands in them as long as its header says
 * (\ref vejgodat_message_bytes). The walk ends at their end, or where what is
 * left is shorter than a header, or than its header says; \a at then says where,
 * and is \a messages_len exactly if nothing is left. Whether a message is in
 * layout isn't checked.
 *
 * \param [in] messages     Messages, end to end; any bytes. Not changed.
 * \param [in] messages_len The number of their bytes.
 * \param [in,out] at       The byte at which the next message begins, 0 for the
 *                          first; any number. It becomes the end of the message
 *                          given; where none is, it stays.
 * \return                  The next message, or NULL if there is none.
 */
VEJGODAT_INLINE const uint8_t *
vejgodat_next_message (const uint8_t * messages, size_t messages_len,
                       size_t * at)
{
  const uint8_t      *message;

  if (*at > messages_len || messages_len - *at < 32) {
    return NULL;
  }
  message = messages + *at;
  if (vejgodat_message_bytes (message) > messages_len - *at) {
    return NULL;
  }
  *at += (size_t) vejgodat_message_bytes (message);
  return message;
}

/** @} */

/** \name Assembly
 *
 * The layout and what makes an area sound are above, under Areas. A rank opens
 * its area, delivers every message meant for it in whatever order they come,
 * and closes the area once all senders are heard. A rank without trees under
 * the new table is due no message and may close at once.
 * @{ */

/** Compute the length of a rank's area.
 *
 * Checks, in this order: 2, 3 and 4 as under Who sends; \ref VEJGODAT_INDEX (5)
 * if \a rank is not below P or \a dimension is neither 2 nor 3.
 * Cost: O(P).
 *
 * \param [in] old_table  The old table; any bytes. Not changed.
 * \param [in] old_len    The number of its bytes.
 * \param [in] new_table  The new table; any bytes. Not changed.
 * \param [in] new_len    The number of its bytes.
 * \param [in] rank       The receiving rank q; any number.
 * \param [in] dimension  The dimension of the mesh; any number.
 * \return                \ref VEJGODAT_AREA_BYTES of P, n and F, which
 *                        \ref vejgodat_open_area needs as buffer.
 */
vejgodat_length     vejgodat_area_length (const uint8_t * old_table,
                                          size_t old_len,
                                          const uint8_t * new_table,
                                          size_t new_len,
                                          uint32_t rank, uint32_t dimension)
  VEJGODAT_USE_RESULT;

/** Open an area: nobody is heard, and every slot is zero.
 *
 * Checks, in this order: 2, 3, 4 and 5 as \ref vejgodat_area_length;
 * \ref VEJGODAT_BUFFER (22) if \a out_len is below the length of the area.
 * Cost: O(P + n).
 *
 * \param [in] old_table  The old table; any bytes. Not changed.
 * \param [in] old_len    The number of its bytes.
 * \param [in] new_table  The new table; any bytes. Not changed.
 * \param [in] new_len    The number of its bytes.
 * \param [in] rank       The receiving rank q; any number.
 * \param [in] dimension  The dimension of the mesh; any number.
 * \param [in] epoch      The epoch that the messages must have; any number.
 * \param [out] out       Its first bytes become the area; the bytes after
 *                        them stay. When refused, all of them stay.
 * \param [in] out_len    The number of bytes of \a out.
 * \return                The bytes written, \ref VEJGODAT_AREA_BYTES of P, n
 *                        and F.
 */
vejgodat_length     vejgodat_open_area (const uint8_t * old_table,
                                        size_t old_len,
                                        const uint8_t * new_table,
                                        size_t new_len,
                                        uint32_t rank, uint32_t dimension,
                                        uint32_t epoch,
                                        uint8_t * out, size_t out_len)
  VEJGODAT_USE_RESULT;

/** Deliver a message to an area.
 *
 * Its trees go to their slots, its ghosts among those held, and its sender is
 * heard from now on. The area stays sound.
 *
 * Checks, in this order: \ref VEJGODAT_AREA (10) if the area isn't sound;
 * \ref VEJGODAT_LAYOUT (11) if the message isn't in layout; \ref VEJGODAT_RUN
 * (12) if its epoch, dimension, K or P isn't the area's
 * (\ref vejgodat_run_field says which);
 * \ref VEJGODAT_RECEIVER (13) if it is for another rank; \ref VEJGODAT_SENDER
 * (14) if its sender isn't in the receive set; \ref VEJGODAT_HEARD (15) if that
 * sender is heard already; \ref VEJGODAT_TREES (16) if its trees aren't exactly
 * those due from the sender; \ref VEJGODAT_GHOSTS (17) if one of its ghosts is
 * in f'(q) or across no face of its trees; \ref VEJGODAT_HELD (18) if one of its
 * ghosts is held already. There is always a slot for each ghost.
 * Cost: one pass over area and message, and for each ghost of the message a
 * search by halves or, where they are many, a look into a set of those held; sets
 * of trees are on the stack, of 8 KiB or 128 KiB.
 *
 * \param [in,out] area    An area; any bytes. When refused, all of them stay;
 *                         those after the area always do.
 * \param [in] area_len    The number of its bytes.
 * \param [in] message     A message; any bytes. Not changed.
 * \param [in] message_len The number of its bytes.
 * \return                 0 if the message was taken, else the refusal.
 */
uint32_t            vejgodat_deliver (uint8_t * area, size_t area_len,
                                      const uint8_t * message,
                                      size_t message_len)
  VEJGODAT_USE_RESULT;

/** Deliver many messages to an area.
 *
 * The messages stand end to end, as they were received. Each is taken to be as
 * long as its header says, 32 + 64 n + 40 g; a rest under 32 bytes, or shorter
 * than its header says, counts as one message more, which isn't in layout. Each
 * is delivered in its turn as \ref vejgodat_deliver does it, but the area is
 * checked only once: it stays sound under any delivery.
 *
 * Checks, in this order: \ref VEJGODAT_AREA (10) if the area isn't sound;
 * \ref VEJGODAT_BUFFER (22) if \a answers_len is below the number of messages,
 * or there are more of these than a uint32_t can tell. What is wrong with a
 * single message is no refusal of the call, but stands in \a answers.
 * Cost: one pass over area and messages, for each ghost that comes a search by
 * halves or, where a message has many, a look into a set of those held, and the
 * ghosts held above it moved; sets of trees on the stack, of 8 KiB or 128 KiB,
 * are cleared for each message.
 *
 * \param [in,out] area     An area; any bytes. When refused, all of them stay;
 *                          those after the area always do.
 * \param [in] area_len     The number of its bytes.
 * \param [in] messages     Messages, end to end; any bytes. Not changed.
 * \param [in] messages_len The number of their bytes.
 * \param [out] answers     Entry i becomes what \ref vejgodat_deliver would
 *                          have answered to message i: 0, or 11 to 18. The
 *                          entries after the last message stay. When refused,
 *                          all of them stay.
 * \param [in] answers_len  The number of entries, not bytes, of \a answers.
 * \return                  The number of messages, taken or not.
 */
vejgodat_count      vejgodat_deliver_all (uint8_t * area, size_t area_len,
                                          const uint8_t * messages,
                                          size_t messages_len,
                                          uint32_t * answers,
                                          size_t answers_len)
  VEJGODAT_USE_RESULT;

/** Find how many senders are heard and how many are due.
 *
 * Checks: \ref VEJGODAT_AREA (10) if the area isn't sound.
 * Cost: one pass over the area.
 *
 * \param [in] area       An area; any bytes. Not changed.
 * \param [in] area_len   The number of its bytes.
 * \return                How many senders are heard, and how many are in the
 *                        receive set. The area may be closed once they are
 *                        equal.
 */
vejgodat_progress   vejgodat_progress_of (const uint8_t * area,
                                          size_t area_len)
  VEJGODAT_USE_RESULT;

/** Compute the length of the part that an area gives.
 *
 * Checks, in this order: \ref VEJGODAT_AREA (10) if the area isn't sound;
 * \ref VEJGODAT_MISSING (20) if a sender of the receive set isn't heard;
 * \ref VEJGODAT_JOIN (21) if the part that the slots give isn't sound.
 * Cost: one pass over the area, which looks for each face at its neighbour;
 * ghosts are looked up in a set of them.
 *
 * \param [in] area       An area; any bytes. Not changed.
 * \param [in] area_len   The number of its bytes.
 * \return                32 + 64 n + 40 h, which \ref vejgodat_close_area needs
 *                        as buffer.
 */
vejgodat_length     vejgodat_part_of_area_length (const uint8_t * area,
                                                  size_t area_len)
  VEJGODAT_USE_RESULT;

/** Close an area: write the rank's part under the new table.
 *
 * Neighbours are renamed to local indices. Where all messages were built from
 * parts of one sound mesh, the part is the one that \ref vejgodat_cut_part cuts
 * from that mesh by the new table, in every byte. The area stays as it is.
 *
 * Checks, in this order: 10, 20 and 21 as \ref vejgodat_part_of_area_length;
 * \ref VEJGODAT_BUFFER (22) if \a out_len is below the length of the part.
 * Cost: that of \ref vejgodat_part_of_area_length, and the bytes written.
 *
 * \param [in] area       An area; any bytes. Not changed.
 * \param [in] area_len   The number of its bytes.
 * \param [out] out       Its first bytes become the part; the bytes after
 *                        them stay. When refused, all of them stay.
 * \param [in] out_len    The number of bytes of \a out.
 * \return                The bytes written, 32 + 64 n + 40 h.
 */
vejgodat_length     vejgodat_close_area (const uint8_t * area,
                                         size_t area_len,
                                         uint8_t * out, size_t out_len)
  VEJGODAT_USE_RESULT;

/** How long the part of an area is by the area's header: 32 + 64 n + 40 h bytes,
 * with the ghosts held so far.
 *
 * Once all senders are heard, this is what \ref vejgodat_close_area needs as
 * buffer, without the checks of \ref vejgodat_part_of_area_length, which the
 * close makes anyway. Before that the close gives 20, however long the buffer
 * is. It reads from the first 32 bytes of the area, which must be there, and
 * checks nothing. For a sound area it is at most 32 + (64 + 40 F) n.
 */
VEJGODAT_INLINE uint64_t
vejgodat_area_part_bytes (const uint8_t * area)
{
  return 32 + 64 * (uint64_t) vejgodat_number_at (area + 20)
    + 40 * (uint64_t) vejgodat_number_at (area + 24);
}

/** @} */

/** \name Refinement strings
 *
 * A tree's refinement as a string in depth-first order, one byte for each
 * element: 1 for a refined one, whose children follow, and 0 for a leaf. The
 * root is at depth 0; an element at \ref VEJGODAT_MAX_DEPTH is a leaf.
 * Quadrilaterals and triangles have 4 children, hexahedra and tetrahedra 8;
 * prisms and pyramids have no such string.
 *
 * A triangle is upright or inverted, and a tree's root is upright. The children
 * of a triangle are, in this order, those at corner 0 and at corner 1, the
 * middle one, and the one at corner 2. Those at the corners are of their
 * parent's kind and the middle one is of the other. Elements of every other
 * shape count as upright.
 *
 * Every string that is accepted is that of one refinement, and the only string
 * for it; every refinement has one.
 * @{ */

/** How deep below its root a tree may be refined. */
#define VEJGODAT_MAX_DEPTH 20

/** The leaves of a tree. When refused, every field but the first is 0. */
typedef struct
{
  uint32_t            refusal;  /**< 0, or the first check that failed. */
  uint32_t            upright;  /**< How many leaves are upright. */
  uint32_t            inverted; /**< How many are inverted. */
  uint32_t            leaves;   /**< How many there are, the sum of both. */
}
vejgodat_leaves;

/** Count the leaves of a tree's refinement.
 *
 * Checks, in this order: \ref VEJGODAT_SHAPE (24) if \a shape isn't 0, 1, 2 or
 * 3; \ref VEJGODAT_STRING (23) if \a bits isn't the string of a refinement of
 * that shape, for whatever reason; \ref VEJGODAT_LEAVES (25) if there are more
 * than \ref VEJGODAT_MAX_LEAVES leaves.
 * Cost: one pass over the string.
 *
 * \param [in] shape      The shape of the tree; any number.
 * \param [in] bits       Its string; any bytes. Not changed.
 * \param [in] bits_len   The number of bytes.
 * \return                The leaves of each kind, and all of them.
 */
vejgodat_leaves     vejgodat_count_leaves (uint32_t shape,
                                           const uint8_t * bits,
                                           size_t bits_len)
  VEJGODAT_USE_RESULT;

/** Count the leaves of each tree of a list.
 *
 * The strings stand end to end in \a bits, in the order of the trees. The
 * counts are always ones that \ref vejgodat_table_from_leaves takes.
 *
 * Checks, in this order, each of all trees before the next:
 * \ref VEJGODAT_PARTITION (6) if \a lengths_len isn't \a shapes_len or this
 * isn't within K's limits; \ref VEJGODAT_SHAPE (24) and
 * \ref VEJGODAT_STRING (23) as \ref vejgodat_count_leaves, 23 also if the sum
 * of the lengths isn't \a bits_len; \ref VEJGODAT_LEAVES (25) if a tree has
 * more than \ref VEJGODAT_MAX_LEAVES leaves, their total being free;
 * \ref VEJGODAT_BUFFER (22) if \a out_len is below the number of trees.
 * Cost: two passes over the strings.
 *
 * \param [in] shapes      The shape of each tree; any numbers. Not changed.
 * \param [in] shapes_len  The number of entries, which is K.
 * \param [in] lengths     The length of each tree's string in bytes; any
 *                         numbers. Not changed.
 * \param [in] lengths_len The number of entries of \a lengths.
 * \param [in] bits        The strings, end to end; any bytes. Not changed.
 * \param [in] bits_len    The number of bytes.
 * \param [out] out        Its first K entries become the leaf counts; the
 *                         entries after them stay. When refused, all of them
 *                         stay.
 * \param [in] out_len     The number of entries, not bytes, of \a out.
 * \return                 The number of counts written, K.
 */
vejgodat_count      vejgodat_leaf_counts (const uint32_t * shapes,
                                          size_t shapes_len,
                                          const uint32_t * lengths,
                                          size_t lengths_len,
                                          const uint8_t * bits,
                                          size_t bits_len,
                                          uint32_t * out, size_t out_len)
  VEJGODAT_USE_RESULT;

/** @} */

/** \name Regions
 *
 * Each core record has a region number at byte 38, 0 for none, up to 4,095; a
 * record with a higher one makes its mesh, part, message or area unsound (7, 8,
 * 10, 11). Linked trees may have different regions. Trees and ghosts keep their
 * regions when a part is cut out, sent, delivered and closed. Before this
 * release the two bytes had to be zero, so older bytes have region 0 throughout.
 * @{
 */

/** The number of regions: a region is below it. */
#define VEJGODAT_REGIONS 4096

/** Count the trees of each region of a part.
 *
 * Entry b of \a out becomes the number of local trees of the part with region
 * b; the \ref VEJGODAT_REGIONS entries sum to n. Ghosts aren't counted.
 *
 * Checks, in this order: those of \ref vejgodat_check_table (2, 3);
 * \ref VEJGODAT_INDEX (5) if \a rank is not below P; \ref VEJGODAT_PART (8) if
 * the part isn't sound; \ref VEJGODAT_BUFFER (22) if \a out_len is below
 * \ref VEJGODAT_REGIONS, whatever n is.
 * Cost: that of \ref vejgodat_check_part, and one pass over the trees.
 *
 * \param [in] part       Any bytes. Not changed.
 * \param [in] part_len   The number of its bytes.
 * \param [in] table      Any bytes. Not changed.
 * \param [in] table_len  The number of its bytes.
 * \param [in] rank       A rank; any number.
 * \param [out] out       Its first \ref VEJGODAT_REGIONS entries become the
 *                        counts by ascending region; the entries after them
 *                        stay. When refused, all of them stay.
 * \param [in] out_len    The number of entries of \a out.
 * \return                0, or the refusal.
 */
uint32_t            vejgodat_region_counts (const uint8_t * part,
                                            size_t part_len,
                                            const uint8_t * table,
                                            size_t table_len, uint32_t rank,
                                            uint32_t * out, size_t out_len)
  VEJGODAT_USE_RESULT;

/** @} */

/** \name Where an object fails
 *
 * A check says that a table (3), a whole mesh (7) or a part (8) fails; these
 * calls say where. The answer is the first fault: the least rank, tree or
 * record at which something is wrong, and of what is wrong there the first.
 * Nothing before it is wrong, but for links between ghosts of a part whose
 * numbers are out of order, see \ref vejgodat_part_fault. Mend it and ask again.
 *
 * An object is sound only if \a refusal and \a fault are both 0. A call that
 * refuses has looked at nothing, and \a fault is 0 as every field then is: a
 * rank that isn't below P gets refusal 5, fault 0 and kind 0, "no fault".
 * @{
 */

/** What the number `kind` of a \ref vejgodat_fault means. */
enum
{
  VEJGODAT_FAULT_NONE = 0,      /**< The object is sound. */

  /* of a table, where `at` is the rank, or P for the last entry */
  VEJGODAT_FAULT_FIRST = 1,     /**< The first entry isn't 0. */
  VEJGODAT_FAULT_TREES = 2,     /**< K, the last entry, is outside its
                                     limits. */
  VEJGODAT_FAULT_ENTRY = 3,     /**< The entry is above K or below -K. */
  VEJGODAT_FAULT_COUNT = 4,     /**< The rank's count is negative. */
  VEJGODAT_FAULT_EMPTY = 5,     /**< The rank is empty, and its entry is
                                     negative. */

  /* of a whole mesh or a part, where `at` is the record */
  VEJGODAT_FAULT_HEADER = 6,    /**< Header or length; `at` is 0, before every
                                     record. \ref vejgodat_part_header and
                                     \ref vejgodat_mesh_header say which
                                     number is wrong. */
  VEJGODAT_FAULT_NUMBER = 7,    /**< The number is out of order. A ghost's is so
                                     also if it isn't below K, or in the rank's
                                     own range. */
  VEJGODAT_FAULT_SHAPE = 8,     /**< The shape is none of the six. */
  VEJGODAT_FAULT_BYTES = 9,     /**< A reserved byte isn't zero, or the region
                                     isn't below 4,096. */
  VEJGODAT_FAULT_UNUSED = 10,   /**< The shape doesn't have this face, and the
                                     face isn't marked so. */
  VEJGODAT_FAULT_BOUNDARY = 11, /**< The face is a boundary, with an
                                     orientation. */
  VEJGODAT_FAULT_DIMENSION = 12, /**< The shape is of the other dimension. */
  VEJGODAT_FAULT_NEIGHBOUR = 13, /**< The neighbour isn't below K, or, of a
                                      part's tree, is no record of the part. */
  VEJGODAT_FAULT_ORIENTATION = 14, /**< The orientation isn't below the number
                                        of the face's corners. */
  VEJGODAT_FAULT_CORNERS = 15,  /**< The two faces differ in corners. */
  VEJGODAT_FAULT_ANSWER = 16,   /**< The neighbour's link doesn't lead back with
                                     the same orientation. */
  VEJGODAT_FAULT_BESIDE = 17    /**< The ghost is beside no tree of the part. */
};

/** Say what a kind of fault means, to stand after the place.
 *
 * `tree 5, face 2: link not answered`: the kinds 10, 11 and 13 to 16 have a
 * face, see \ref vejgodat_fault_has_face.
 *
 * \param [in] kind       A result's kind; any number.
 * \return                A text that lasts, also for 0 and for any other number.
 */
VEJGODAT_INLINE const char *
vejgodat_fault_text (uint32_t kind)
{
  switch (kind) {
  case VEJGODAT_FAULT_NONE:
    return "no fault";
  case VEJGODAT_FAULT_FIRST:
    return "first entry not 0";
  case VEJGODAT_FAULT_TREES:
    return "K outside its limits (1 to 1,048,576)";
  case VEJGODAT_FAULT_ENTRY:
    return "entry above K or below -K";
  case VEJGODAT_FAULT_COUNT:
    return "negative count";
  case VEJGODAT_FAULT_EMPTY:
    return "empty rank with a negative entry";
  case VEJGODAT_FAULT_HEADER:
    return "header or length";
  case VEJGODAT_FAULT_NUMBER:
    return "number out of order";
  case VEJGODAT_FAULT_SHAPE:
    return "shape none of the six";
  case VEJGODAT_FAULT_BYTES:
    return "zero bytes not zero, or region not below 4,096";
  case VEJGODAT_FAULT_UNUSED:
    return "unused face not marked";
  case VEJGODAT_FAULT_BOUNDARY:
    return "boundary with an orientation";
  case VEJGODAT_FAULT_DIMENSION:
    return "shape of the other dimension";
  case VEJGODAT_FAULT_NEIGHBOUR:
    return "neighbour not below K, or not held";
  case VEJGODAT_FAULT_ORIENTATION:
    return "orientation not below the corners";
  case VEJGODAT_FAULT_CORNERS:
    return "corners differ";
  case VEJGODAT_FAULT_ANSWER:
    return "link not answered";
  case VEJGODAT_FAULT_BESIDE:
    return "ghost beside no tree";
  default:
    return "no fault of this library";
  }
}

/** Whether a kind of fault has a face: 10, 11 and 13 to 16.
 *
 * \param [in] kind       A result's kind; any number.
 * \return                1 if `face` says where, else 0.
 */
VEJGODAT_INLINE int
vejgodat_fault_has_face (uint32_t kind)
{
  return kind == VEJGODAT_FAULT_UNUSED || kind == VEJGODAT_FAULT_BOUNDARY
    || (VEJGODAT_FAULT_NEIGHBOUR <= kind && kind <= VEJGODAT_FAULT_ANSWER);
}

/** The first fault of an object. */
typedef struct
{
  uint32_t            refusal;  /**< 0, or why the call declined. */
  uint32_t            fault;    /**< 0 for a sound object, else what its check
                                     refuses it with: 3, 7 or 8. Also 0 where
                                     the call declined: the object is sound
                                     only if \a refusal is 0 too. */
  uint32_t            kind;     /**< What is wrong: \ref VEJGODAT_FAULT_FIRST or
                                     one of the names that follow it; 0 exactly
                                     where \a fault is. */
  uint32_t            at;       /**< The rank, tree or record. */
  uint32_t            face;     /**< The face, of a kind that has one, else
                                     0. */
}
vejgodat_fault;

/* The next three are for vejgodat_write_fault alone, and so no symbols. */

/* One character more of a text that has `at` of them, if the buffer has room for
 * it and the end. Gives the length with it. */
static inline size_t
vejgodat_text_character (char *text, size_t text_len, size_t at, char more)
{
  if (at + 1 < text_len) {
    text[at] = more;
    text[at + 1] = '\0';
  }
  return at + 1;
}

/* The same for each character of a string. */
static inline size_t
vejgodat_text_string (char *text, size_t text_len, size_t at,
                      const char *more)
{
  while (*more != '\0') {
    at = vejgodat_text_character (text, text_len, at, *more++);
  }
  return at;
}

/* The same for each digit of a number. */
static inline size_t
vejgodat_text_number (char *text, size_t text_len, size_t at, uint32_t more)
{
  uint32_t            unit = 1;

  while (more / unit > 9) {
    unit *= 10;
  }
  for (; unit > 0; unit /= 10) {
    at = vejgodat_text_character (text, text_len, at,
                                  (char) ('0' + more / unit % 10));
  }
  return at;
}

/** Write where an object fails and how: `tree 5, face 2: link not answered`.
 *
 * The place is a rank of a table (`entry` where K is wrong, which is no rank's),
 * a tree of a whole mesh or a record of a part; header and length (6) have none.
 * Of a call that refused it writes the words of the refusal.
 *
 * \param [in] fault      What one of the calls below answered; any numbers.
 * \param [out] text      Gets as many characters as fit before a final '\0',
 *                        which is there unless \a text_len is 0; NULL will do
 *                        then.
 * \param [in] text_len   The number of its characters; 200 are enough.
 * \return                The length of the whole text without its '\0': the text
 *                        is cut short if this isn't below \a text_len.
 */
VEJGODAT_INLINE size_t
vejgodat_write_fault (vejgodat_fault fault, char *text, size_t text_len)
{
  size_t              at = 0;

  if (text_len > 0) {
    text[0] = '\0';
  }
  if (fault.refusal != VEJGODAT_OK) {
    return vejgodat_text_string (text, text_len, at,
                                 vejgodat_refusal_text (fault.refusal));
  }
  if (fault.kind != VEJGODAT_FAULT_NONE
      && fault.kind != VEJGODAT_FAULT_HEADER) {
    at = vejgodat_text_string (text, text_len, at,
                               fault.kind == VEJGODAT_FAULT_TREES ? "entry "
                               : fault.fault == VEJGODAT_TABLE ? "rank "
                               : fault.fault == VEJGODAT_MESH ? "tree "
                               : "record ");
    at = vejgodat_text_number (text, text_len, at, fault.at);
    if (vejgodat_fault_has_face (fault.kind)) {
      at = vejgodat_text_string (text, text_len, at, ", face ");
      at = vejgodat_text_number (text, text_len, at, fault.face);
    }
    at = vejgodat_text_string (text, text_len, at, ": ");
  }
  return vejgodat_text_string (text, text_len, at,
                               vejgodat_fault_text (fault.kind));
}

/** Say where a table fails.
 *
 * The first fault is at the least rank p, or entry P, at which an entry is
 * wrong, with the first kind of 1 to 5 that holds there. K is the last entry as
 * it stands; a negative one is above every entry, so that it is the fault itself
 * (2) if nothing else is.
 *
 * Checks: \ref VEJGODAT_RANKS (2) if \a table_len isn't 8 (P + 1) for a P
 * within its limits.
 * Cost: one pass over the table, O(P).
 *
 * \param [in] table      Any bytes. Not changed.
 * \param [in] table_len  The number of its bytes.
 * \return                The first fault; \a fault is 0 or 3, as
 *                        \ref vejgodat_check_table gives it.
 */
vejgodat_fault      vejgodat_table_fault (const uint8_t * table,
                                          size_t table_len)
  VEJGODAT_USE_RESULT;

/** Say where a whole mesh fails.
 *
 * Header and length (6) come before every record. Else the first fault is that
 * of the least tree with one. Of a tree the kinds without a face come first (7,
 * 8, 9, 12), then the faces from 0 on, each with the first kind of 10, 11 and 13
 * to 16 that holds there. Each face is read by the shape of its own record.
 *
 * Checks: none.
 * Cost: one pass over the records as far as the fault, which looks for each face
 * at its neighbour.
 *
 * \param [in] mesh       Any bytes. Not changed.
 * \param [in] mesh_len   The number of its bytes.
 * \return                The first fault; \a fault is 0 or 7, as
 *                        \ref vejgodat_check_mesh gives it, \a at the tree.
 */
vejgodat_fault      vejgodat_mesh_fault (const uint8_t * mesh,
                                         size_t mesh_len) VEJGODAT_USE_RESULT;

/** Say where a part fails.
 *
 * Header and length (6) come before every record. Else the first fault is that
 * of the least record with one: the trees by local index, then the ghosts, which
 * count on from n. In a record the order is that of \ref vejgodat_mesh_fault,
 * with 17 last. A tree's link is followed by its local index. A ghost's link is
 * followed to a tree of the rank's range by its place, and to another ghost by
 * its number, among the ghosts before the first whose number is out of order; a
 * link to any other ghost is taken for one to a tree that is not held. So every
 * tree before the fault is right, and every ghost before it but for such links:
 * a part that is mended at this place may show a fault at an earlier ghost.
 *
 * Checks, in this order: those of \ref vejgodat_check_table (2, 3);
 * \ref VEJGODAT_INDEX (5) if \a rank is not below P.
 * Cost: that of \ref vejgodat_check_part as far as the fault, after one pass
 * over the ghosts' numbers.
 *
 * \param [in] part       Any bytes. Not changed.
 * \param [in] part_len   The number of its bytes.
 * \param [in] table      Any bytes. Not changed.
 * \param [in] table_len  The number of its bytes.
 * \param [in] rank       A rank; any number.
 * \return                The first fault; \a fault is 0 or 8, as
 *                        \ref vejgodat_check_part gives it, \a at the record.
 */
vejgodat_fault      vejgodat_part_fault (const uint8_t * part,
                                         size_t part_len,
                                         const uint8_t * table,
                                         size_t table_len, uint32_t rank)
  VEJGODAT_USE_RESULT;

/** @} */

/** \name What is wrong with a header
 *
 * \ref vejgodat_part_fault and \ref vejgodat_mesh_fault answer header or length
 * (6) where the object is one of another rank, table or number of ranks, or its
 * length is that of a larger buffer. These calls say which number is wrong, what
 * it is and what it should be. The numbers are looked at in the order of the
 * names below, and the first that is wrong is the answer.
 * @{
 */

/** What the number `field` of a \ref vejgodat_wrong_field means. */
enum
{
  VEJGODAT_HEADER_NONE = 0,     /**< Header and length are right. */
  VEJGODAT_HEADER_SHORT = 1,    /**< The buffer is shorter than a header, which
                                     has 32 bytes in a part and 8 in a mesh. */
  VEJGODAT_HEADER_DIMENSION = 2, /**< The dimension is neither 2 nor 3. */
  VEJGODAT_HEADER_TREES = 3,    /**< K isn't the table's; in a mesh, it isn't
                                     from 1 to \ref VEJGODAT_MAX_TREES. */
  VEJGODAT_HEADER_RANKS = 4,    /**< P isn't the table's. */
  VEJGODAT_HEADER_RANK = 5,     /**< The rank isn't the one given. */
  VEJGODAT_HEADER_FIRST = 6,    /**< The first tree isn't the rank's. */
  VEJGODAT_HEADER_COUNT = 7,    /**< The number of trees n isn't the rank's. */
  VEJGODAT_HEADER_ZERO = 8,     /**< The last number of the header isn't 0. */
  VEJGODAT_HEADER_LENGTH = 9    /**< The buffer isn't as long as n and g, or K
                                     of a mesh, say. */
};

/** Say what a field means, as part of a sentence without its full stop.
 *
 * \param [in] field      A result's field; any number.
 * \return                A text that lasts, also for 0 and for any other number.
 */
VEJGODAT_INLINE const char *
vejgodat_header_text (uint32_t field)
{
  switch (field) {
  case VEJGODAT_HEADER_NONE:
    return "header and length are right";
  case VEJGODAT_HEADER_SHORT:
    return "shorter than a header";
  case VEJGODAT_HEADER_DIMENSION:
    return "dimension neither 2 nor 3";
  case VEJGODAT_HEADER_TREES:
    return "K not the table's, or outside its limits (1 to 1,048,576)";
  case VEJGODAT_HEADER_RANKS:
    return "P not the table's";
  case VEJGODAT_HEADER_RANK:
    return "rank not the one given";
  case VEJGODAT_HEADER_FIRST:
    return "first tree not the rank's";
  case VEJGODAT_HEADER_COUNT:
    return "number of trees not the rank's";
  case VEJGODAT_HEADER_ZERO:
    return "last number of the header not 0";
  case VEJGODAT_HEADER_LENGTH:
    return "length not that of the header's counts";
  default:
    return "no field of a header";
  }
}

/** The first number of a header that is wrong, or the length. */
typedef struct
{
  uint32_t            refusal;  /**< 0, or why the call declined. */
  uint32_t            field;    /**< What is wrong: \ref VEJGODAT_HEADER_SHORT or
                                     one of the names that follow it; 0 where
                                     nothing is. A refused call has 0 here too:
                                     look at \a refusal first. */
  uint64_t            due;      /**< The number that would be right; for
                                     \ref VEJGODAT_HEADER_SHORT the bytes of a
                                     header. 0 where no single number would be:
                                     for the dimension and for K of a mesh. */
  uint64_t            found;    /**< The number that stands there; the bytes of
                                     the buffer for \ref VEJGODAT_HEADER_SHORT
                                     and \ref VEJGODAT_HEADER_LENGTH. */
}
vejgodat_wrong_field;

/** Say what is wrong with the header or the length of a part.
 *
 * \a field is 0 exactly where the header and the length are those of a part
 * that is sound for the table and the rank. The records aren't looked at.
 *
 * Checks, in this order: those of \ref vejgodat_check_table (2, 3);
 * \ref VEJGODAT_INDEX (5) if \a rank is not below P.
 * Cost: O(P) for the check of the table; then constant.
 *
 * \param [in] part       Any bytes. Not changed.
 * \param [in] part_len   The number of its bytes.
 * \param [in] table      Any bytes. Not changed.
 * \param [in] table_len  The number of its bytes.
 * \param [in] rank       A rank; any number.
 * \return                The first of the fields 1 to 9 that is wrong.
 */
vejgodat_wrong_field vejgodat_part_header (const uint8_t * part,
                                           size_t part_len,
                                           const uint8_t * table,
                                           size_t table_len, uint32_t rank)
  VEJGODAT_USE_RESULT;

/** Say what is wrong with the header or the length of a whole mesh.
 *
 * \a field is 0 exactly where the header and the length are those of a sound
 * mesh. The records aren't looked at.
 *
 * Checks: none.
 * Cost: constant.
 *
 * \param [in] mesh       Any bytes. Not changed.
 * \param [in] mesh_len   The number of its bytes.
 * \return                The first of the fields 1, 2, 3 and 9 that is wrong.
 */
vejgodat_wrong_field vejgodat_mesh_header (const uint8_t * mesh,
                                           size_t mesh_len)
  VEJGODAT_USE_RESULT;

/** What \ref vejgodat_run_field answers. */
enum
{
  VEJGODAT_RUN_NONE = 0,        /**< All four are the area's. */
  VEJGODAT_RUN_EPOCH = 1,       /**< The epoch isn't the area's. */
  VEJGODAT_RUN_DIMENSION = 2,   /**< The dimension isn't the area's. */
  VEJGODAT_RUN_TREES = 3,       /**< K isn't the area's. */
  VEJGODAT_RUN_RANKS = 4        /**< P isn't the area's. */
};

/** Say which number makes a delivery answer \ref VEJGODAT_RUN (12).
 *
 * It reads the first 16 bytes of area and message and checks nothing: both must
 * be those of a delivery that answered 12, or be as long as a header.
 *
 * \param [in] area       An area. Not changed.
 * \param [in] message    A message. Not changed.
 * \return                The first of epoch (1), dimension (2), K (3) and P (4)
 *                        in which the message differs from the area; 0 for none.
 */
VEJGODAT_INLINE uint32_t
vejgodat_run_field (const uint8_t * area, const uint8_t * message)
{
  uint32_t            i;

  for (i = 0; i < 4; ++i) {
    if (vejgodat_number_at (area + 4 * i)
        != vejgodat_number_at (message + 4 * i)) {
      return i + 1;
    }
  }
  return VEJGODAT_RUN_NONE;
}

/** Say what a number of \ref vejgodat_run_field means, as part of a sentence
 * without its full stop.
 *
 * \param [in] field      A number of \ref vejgodat_run_field; any number.
 * \return                A text that lasts, also for 0 and for any other number.
 */
VEJGODAT_INLINE const char *
vejgodat_run_text (uint32_t field)
{
  switch (field) {
  case VEJGODAT_RUN_NONE:
    return "epoch, dimension, K and P are the area's";
  case VEJGODAT_RUN_EPOCH:
    return "epoch not the area's";
  case VEJGODAT_RUN_DIMENSION:
    return "dimension not the area's";
  case VEJGODAT_RUN_TREES:
    return "K not the area's";
  case VEJGODAT_RUN_RANKS:
    return "P not the area's";
  default:
    return "no number of a run";
  }
}

/** @} */

/** \name Parts stored by columns
 *
 * A column file is a part in another order of bytes, which backup tools pack
 * better: the header's 32 bytes; then byte 0 of every tree record, byte 1 of
 * every tree record and so on to byte 63; then likewise the ghosts' 40. Byte j
 * of tree i stands at 32 + j n + i, byte j of ghost i at 32 + 64 n + j g + i.
 * It is as long as the part. For every sound part the way back gives its bytes,
 * and for every file that is accepted the way there gives the file; two parts
 * have equal files exactly when they are equal.
 * @{
 */

/** Write a part by columns.
 *
 * \a out must not overlap \a part or \a table, so a part isn't turned in its
 * own place: no call can see that, and what it writes would be garbage, without
 * a refusal.
 *
 * Checks, in this order: those of \ref vejgodat_check_table (2, 3);
 * \ref VEJGODAT_INDEX (5) if \a rank is not below P; \ref VEJGODAT_PART (8) if
 * the part isn't sound; \ref VEJGODAT_BUFFER (22) if \a out_len is below
 * \a part_len.
 * Cost: that of \ref vejgodat_check_part, and one pass over the bytes.
 *
 * \param [in] part       Any bytes. Not changed.
 * \param [in] part_len   The number of its bytes.
 * \param [in] table      Any bytes. Not changed.
 * \param [in] table_len  The number of its bytes.
 * \param [in] rank       A rank; any number.
 * \param [out] out       Its first \a part_len bytes become the column file;
 *                        the bytes after them stay. When refused, all of them
 *                        stay.
 * \param [in] out_len    The number of bytes of \a out.
 * \return                The bytes written, \a part_len.
 */
vejgodat_length     vejgodat_part_to_columns (const uint8_t * part,
                                              size_t part_len,
                                              const uint8_t * table,
                                              size_t table_len,
                                              uint32_t rank, uint8_t * out,
                                              size_t out_len)
  VEJGODAT_USE_RESULT;

/** Write the part of a column file.
 *
 * \a out must not overlap \a columns or \a table, as for
 * \ref vejgodat_part_to_columns.
 *
 * Checks, in this order: those of \ref vejgodat_check_table (2, 3);
 * \ref VEJGODAT_INDEX (5) if \a rank is not below P; \ref VEJGODAT_COLUMNS
 * (33) if the bytes aren't the column file of a part that is sound for the table
 * and the rank, a length that isn't the header's included;
 * \ref VEJGODAT_BUFFER (22) if \a out_len is below \a columns_len.
 * Cost: that of the checks of \ref vejgodat_check_part, made on the columns, and
 * one pass over the bytes.
 *
 * \param [in] columns    Any bytes. Not changed.
 * \param [in] columns_len  The number of its bytes.
 * \param [in] table      Any bytes. Not changed.
 * \param [in] table_len  The number of its bytes.
 * \param [in] rank       A rank; any number.
 * \param [out] out       Its first \a columns_len bytes become the part; the
 *                        bytes after them stay. When refused, all of them stay.
 * \param [in] out_len    The number of bytes of \a out.
 * \return                The bytes written, \a columns_len.
 */
vejgodat_length     vejgodat_columns_to_part (const uint8_t * columns,
                                              size_t columns_len,
                                              const uint8_t * table,
                                              size_t table_len,
                                              uint32_t rank, uint8_t * out,
                                              size_t out_len)
  VEJGODAT_USE_RESULT;

/** @} */

/** \name Restart on another number of ranks
 *
 * Parts that P ranks wrote are read by Q of them so, with M the larger of P and
 * Q. Give the old table of P ranks and the new one of Q ranks M ranks each
 * (\ref vejgodat_pad_table). Each old part gets its place under the padded old
 * table (\ref vejgodat_relabel_part), and each rank from P on an empty part
 * (\ref vejgodat_empty_part). Move the parts from the one padded table to the
 * other as always. The part that a rank below Q then closes gets its place under
 * the new table of Q ranks (\ref vejgodat_relabel_part): it is the part that
 * \ref vejgodat_cut_part gives for that table.
 * @{
 */

/** Write a table with more or fewer ranks.
 *
 * Every rank of both tables has the same trees, and each rank of only one of
 * them has none. The first entries are those of \a table, as many as both have;
 * every entry after them is K. The way back gives the bytes of \a table.
 *
 * \a out must not overlap \a table.
 *
 * Checks, in this order: \ref VEJGODAT_RANKS (2) if \a table_len or \a ranks
 * isn't within P's limits; \ref VEJGODAT_TABLE (3) if the table isn't valid;
 * \ref VEJGODAT_OCCUPIED (64) if a rank from \a ranks on has trees;
 * \ref VEJGODAT_BUFFER (22) if \a out_len is below 8 (\a ranks + 1).
 * Cost: O(P + \a ranks).
 *
 * \param [in] table      Any bytes. Not changed.
 * \param [in] table_len  The number of its bytes.
 * \param [in] ranks      How many ranks the table to write has; any number.
 * \param [out] out       Its first 8 (\a ranks + 1) bytes become the table; the
 *                        bytes after them stay. When refused, all of them stay.
 * \param [in] out_len    The number of bytes of \a out.
 * \return                The bytes written, 8 (\a ranks + 1).
 */
vejgodat_length     vejgodat_pad_table (const uint8_t * table,
                                        size_t table_len,
                                        uint32_t ranks, uint8_t * out,
                                        size_t out_len)
  VEJGODAT_USE_RESULT;

/** Write the part of a rank that has no trees: a header of 32 bytes.
 *
 * It is what \ref vejgodat_cut_part gives for every sound mesh of the table's K
 * and the dimension. \a out must not overlap \a table.
 *
 * Checks, in this order: those of \ref vejgodat_check_table (2, 3);
 * \ref VEJGODAT_INDEX (5) if \a rank is not below P or \a dimension is neither
 * 2 nor 3; \ref VEJGODAT_OCCUPIED (64) if the rank has trees;
 * \ref VEJGODAT_BUFFER (22) if \a out_len is below 32.
 * Cost: O(P).
 *
 * \param [in] table      Any bytes. Not changed.
 * \param [in] table_len  The number of its bytes.
 * \param [in] rank       A rank; any number.
 * \param [in] dimension  The mesh's dimension; any number.
 * \param [out] out       Its first 32 bytes become the part; the bytes after
 *                        them stay. When refused, all of them stay.
 * \param [in] out_len    The number of bytes of \a out.
 * \return                The bytes written, 32.
 */
vejgodat_length     vejgodat_empty_part (const uint8_t * table,
                                         size_t table_len, uint32_t rank,
                                         uint32_t dimension, uint8_t * out,
                                         size_t out_len)
  VEJGODAT_USE_RESULT;

/** Write a part under another table and rank with the same trees.
 *
 * Only bytes 8 to 15, P and the rank, change. What is the part of a mesh for
 * the first table and rank becomes the part of that mesh for the other ones.
 * \a out must not overlap \a part, \a table or \a other.
 *
 * Checks, in this order: those of \ref vejgodat_check_table for both tables (2,
 * 3); \ref VEJGODAT_INDEX (5) if \a rank is not below the P of \a table or
 * \a other_rank not below that of \a other; \ref VEJGODAT_PART (8) if the part
 * isn't sound for \a table and \a rank; \ref VEJGODAT_RANGE (65) if the tables
 * differ in K, or the ranks in first tree or count, also where both have no
 * trees; \ref VEJGODAT_BUFFER (22) if \a out_len is below \a part_len.
 * Cost: that of \ref vejgodat_check_part, and one pass over the bytes.
 *
 * \param [in] part       Any bytes. Not changed.
 * \param [in] part_len   The number of its bytes.
 * \param [in] table      Any bytes. Not changed.
 * \param [in] table_len  The number of its bytes.
 * \param [in] rank       A rank; any number.
 * \param [in] other      Any bytes. Not changed.
 * \param [in] other_len  The number of its bytes.
 * \param [in] other_rank The rank under the other table; any number.
 * \param [out] out       Its first \a part_len bytes become the part; the bytes
 *                        after them stay. When refused, all of them stay.
 * \param [in] out_len    The number of bytes of \a out.
 * \return                The bytes written, \a part_len.
 */
vejgodat_length     vejgodat_relabel_part (const uint8_t * part,
                                           size_t part_len,
                                           const uint8_t * table,
                                           size_t table_len, uint32_t rank,
                                           const uint8_t * other,
                                           size_t other_len,
                                           uint32_t other_rank,
                                           uint8_t * out, size_t out_len)
  VEJGODAT_USE_RESULT;

/** @} */

/** \name Ranks of unequal speed */
/** @{ */

/** Write the offset table that divides the leaves among ranks of unequal speed.
 *
 * Each rank has a weight; W is their sum. With N leaves in all, numbered tree
 * by tree, and V the sum of the weights below rank p, whose own is w, rank p
 * gets the leaves from ceil (N V / W) up to, but without, ceil (N (V + w) / W):
 * its share N w / W, rounded down or up. A rank of weight 0 is empty, and equal
 * weights above 0 give the table of \ref vejgodat_table_from_leaves.
 *
 * Checks, in this order: \ref VEJGODAT_RANKS (2) if \a weights_len isn't within
 * P's limits; \ref VEJGODAT_WEIGHTS (30) if all weights are 0 or one is above
 * \ref VEJGODAT_MAX_WEIGHT; \ref VEJGODAT_PARTITION (6) if \a leaves_len isn't
 * within K's limits or a leaf count isn't from 1 to \ref VEJGODAT_MAX_LEAVES;
 * \ref VEJGODAT_BUFFER (22) if \a out_len is below 8 (P + 1).
 * Cost: O(K + P).
 *
 * \param [in] weights    The weight of each rank; any numbers. Not changed.
 * \param [in] weights_len The number of entries, which is P.
 * \param [in] leaves     The number of leaves of each tree; any numbers. Not
 *                        changed.
 * \param [in] leaves_len The number of entries, which is K.
 * \param [out] out       Its first 8 (P + 1) bytes become the table; the bytes
 *                        after them stay. When refused, all of them stay.
 * \param [in] out_len    The number of bytes of \a out.
 * \return                The bytes written, 8 (P + 1).
 */
vejgodat_length     vejgodat_table_from_weights (const uint32_t * weights,
                                                 size_t weights_len,
                                                 const uint32_t * leaves,
                                                 size_t leaves_len,
                                                 uint8_t * out,
                                                 size_t out_len)
  VEJGODAT_USE_RESULT;

/** @} */

/** \name Leaf totals by blocks */
/** @{ */

/** The trees of a block; the last block has what is left. */
#define VEJGODAT_BLOCK_TREES 256

/** Write the table of \ref vejgodat_table_from_leaves from leaf counts that come
 * with a sum for each block of \ref VEJGODAT_BLOCK_TREES trees.
 *
 * Each sum is compared with its block. The total is made of the sums in pairs,
 * then in pairs of pairs, and so on; the table is that of
 * \ref vejgodat_table_from_leaves, in every byte.
 *
 * Checks, in this order: \ref VEJGODAT_RANKS (2) if \a ranks isn't within P's
 * limits; \ref VEJGODAT_PARTITION (6) if \a leaves_len isn't within K's limits,
 * a leaf count isn't from 1 to \ref VEJGODAT_MAX_LEAVES, \a sums_len isn't
 * ceil (K / 256) or a sum isn't that of its block;
 * \ref VEJGODAT_BUFFER (22) if \a out_len is below 8 (P + 1).
 * Cost: O(K + P).
 *
 * \param [in] ranks      The number of ranks P; any number.
 * \param [in] leaves     The number of leaves of each tree; any numbers. Not
 *                        changed.
 * \param [in] leaves_len The number of entries, which is K.
 * \param [in] sums       The sum of each block's leaf counts; any numbers, and
 *                        aligned as uint64_t. Not changed.
 * \param [in] sums_len   The number of entries.
 * \param [out] out       Its first 8 (P + 1) bytes become the table; the bytes
 *                        after them stay. When refused, all of them stay.
 * \param [in] out_len    The number of bytes of \a out.
 * \return                The bytes written, 8 (P + 1).
 */
vejgodat_length     vejgodat_table_from_blocks (uint32_t ranks,
                                                const uint32_t * leaves,
                                                size_t leaves_len,
                                                const uint64_t * sums,
                                                size_t sums_len,
                                                uint8_t * out,
                                                size_t out_len)
  VEJGODAT_USE_RESULT;

/** @} */

/** \name Probes
 *
 * In a mesh whose tree data are boxes, the trees near a probe can be listed.
 * The 24 bytes of tree data, at byte 40 of a tree record, are then six floats
 * of 32 bits, little-endian: the low corner on axes 0, 1 and 2, then the high
 * corner, in dimension 2 too. Ghosts have no box. All comparisons are those of
 * the floats themselves: -0 equals 0, and infinities are values like others.
 * No other call looks into the tree data.
 *
 * The three calls differ in the probe alone.
 * @{ */

/** List the trees whose box has a point: low <= value <= high on all axes.
 *
 * Checks, in this order: those of \ref vejgodat_check_part (2, 3, 5, 8);
 * \ref VEJGODAT_PROBE (31) if \a x, \a y or \a z is a NaN; \ref VEJGODAT_BOX
 * (32) if the box of a tree of the part, met or not, has a NaN or low above high
 * on an axis; \ref VEJGODAT_BUFFER (22) if \a out_len is below the number of
 * trees met; n entries are always enough.
 * Cost: that of \ref vejgodat_check_part, two passes over the trees, one on the
 * bits of the boxes and one that counts, and another up to the last tree met.
 *
 * \param [in] part       Any bytes. Not changed.
 * \param [in] part_len   The number of its bytes.
 * \param [in] table      Any bytes. Not changed.
 * \param [in] table_len  The number of its bytes.
 * \param [in] rank       A rank; any number.
 * \param [in] x          The point on axis 0; any float.
 * \param [in] y          On axis 1; any float.
 * \param [in] z          On axis 2; any float.
 * \param [out] out       Its first entries become the local indices of the
 *                        trees met, ascending; the entries after them stay.
 *                        When refused, all of them stay.
 * \param [in] out_len    The number of entries, not bytes, of \a out.
 * \return                How many trees are met.
 */
vejgodat_count      vejgodat_trees_at_point (const uint8_t * part,
                                             size_t part_len,
                                             const uint8_t * table,
                                             size_t table_len, uint32_t rank,
                                             float x, float y, float z,
                                             uint32_t * out, size_t out_len)
  VEJGODAT_USE_RESULT;

/** List the trees whose box reaches below a limit on an axis: low <= limit.
 *
 * Checks and cost: those of \ref vejgodat_trees_at_point;
 * \ref VEJGODAT_PROBE (31) if \a axis is above 2 or \a limit is a NaN.
 *
 * \param [in] part       Any bytes. Not changed.
 * \param [in] part_len   The number of its bytes.
 * \param [in] table      Any bytes. Not changed.
 * \param [in] table_len  The number of its bytes.
 * \param [in] rank       A rank; any number.
 * \param [in] axis       The axis; any number.
 * \param [in] limit      The limit; any float.
 * \param [out] out       As for \ref vejgodat_trees_at_point.
 * \param [in] out_len    The number of entries, not bytes, of \a out.
 * \return                How many trees are met.
 */
vejgodat_count      vejgodat_trees_below (const uint8_t * part,
                                          size_t part_len,
                                          const uint8_t * table,
                                          size_t table_len, uint32_t rank,
                                          uint32_t axis, float limit,
                                          uint32_t * out, size_t out_len)
  VEJGODAT_USE_RESULT;

/** List the trees whose box meets a slab between two limits on an axis:
 * low <= upper and lower <= high.
 *
 * Checks and cost: those of \ref vejgodat_trees_at_point;
 * \ref VEJGODAT_PROBE (31) if \a axis is above 2, a limit is a NaN or
 * \a lower is above \a upper.
 *
 * \param [in] part       Any bytes. Not changed.
 * \param [in] part_len   The number of its bytes.
 * \param [in] table      Any bytes. Not changed.
 * \param [in] table_len  The number of its bytes.
 * \param [in] rank       A rank; any number.
 * \param [in] axis       The axis; any number.
 * \param [in] lower      The lower limit; any float.
 * \param [in] upper      The upper limit; any float.
 * \param [out] out       As for \ref vejgodat_trees_at_point.
 * \param [in] out_len    The number of entries, not bytes, of \a out.
 * \return                How many trees are met.
 */
vejgodat_count      vejgodat_trees_between (const uint8_t * part,
                                            size_t part_len,
                                            const uint8_t * table,
                                            size_t table_len, uint32_t rank,
                                            uint32_t axis, float lower,
                                            float upper,
                                            uint32_t * out, size_t out_len)
  VEJGODAT_USE_RESULT;

/** @} */

/** \name Element files of Triangle
 *
 * The program Triangle writes its triangles as text, in a file whose name ends
 * in `.ele`. These calls take that text and make a whole mesh of triangles of
 * it.
 *
 * The first line has three numbers: that of the triangles, from 1 to
 * \ref VEJGODAT_MAX_TRIANGLES, then 3 and 0. A line for each triangle follows:
 * its number and three vertex numbers. Triangles number from 0 or from 1,
 * rising by one. A number has 1 to 8 digits; zeros may stand in front. Spaces
 * and tabs part numbers and may stand at a line's ends. A comment runs from `#`
 * to the line's end. Blank lines, and those with only a comment, are skipped
 * wherever they stand. Every line ends in LF, the last one too, and CR stands in
 * comments only.
 *
 * Tree t of the mesh is the triangle of the t-th line, its face i the one across
 * from corner i: faces 0, 1 and 2 have corners 1 and 2, 0 and 2, 0 and 1. Two
 * faces with the same two vertices are neighbours, every other face is the
 * boundary. The orientation is 0 if the lower-numbered corners of both faces are
 * the same vertex, else 1. Regions and tree data are zero. The mesh is always
 * one that \ref vejgodat_check_mesh accepts.
 * @{
 */

/** The largest number of triangles of an element file. */
#define VEJGODAT_MAX_TRIANGLES 65536

/** Say how long the mesh of an element file is.
 *
 * Checks, in this order: \ref VEJGODAT_TEXT (27) if the text has another form;
 * \ref VEJGODAT_TWICE (28) if a triangle has a vertex twice;
 * \ref VEJGODAT_EDGE (29) if three faces have the same two vertices.
 * Cost: near that of three passes over the text; the faces are found by a hash
 * of their vertices. 65,536 triangles take some ten milliseconds, and files made
 * to give many faces one hash took half a second.
 * Stack: \ref VEJGODAT_IMPORT_STACK_BYTES, whatever the file is.
 *
 * \param [in] text       The text; any bytes. Not changed.
 * \param [in] text_len   The number of bytes.
 * \return                The length, 8 + 64 n for n triangles.
 */
vejgodat_length     vejgodat_triangle_length (const uint8_t * text,
                                              size_t text_len)
  VEJGODAT_USE_RESULT;

/** Write the whole mesh of an element file.
 *
 * Checks, in this order: those of \ref vejgodat_triangle_length (27, 28, 29);
 * \ref VEJGODAT_BUFFER (22) if \a out_len is below 8 + 64 n.
 * Cost: that of \ref vejgodat_triangle_length, once more for the search of
 * faces, and one pass over the mesh.
 * Stack: \ref VEJGODAT_IMPORT_STACK_BYTES, whatever the file is.
 *
 * \param [in] text       The text; any bytes. Not changed.
 * \param [in] text_len   The number of bytes.
 * \param [out] out       Its first 8 + 64 n bytes become the mesh; the bytes
 *                        after them stay. When refused, all of them stay.
 * \param [in] out_len    The number of bytes of \a out.
 * \return                The bytes written, 8 + 64 n.
 */
vejgodat_length     vejgodat_import_triangle (const uint8_t * text,
                                              size_t text_len,
                                              uint8_t * out, size_t out_len)
  VEJGODAT_USE_RESULT;

/** @} */

#ifdef __cplusplus
}
#endif

#endif /* VEJGODAT_H */
