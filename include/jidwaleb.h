/* Jidwaleb over C's interface: libjidwaleb.a, which `sh tools/build.sh archive` writes for x86-64 Linux. It needs no other library; of C's it
 * uses memcpy and memset.
 *
 * Buffers. A buffer goes as a pointer and its length in elements, not in bytes. The caller lends every buffer: no call allocates memory, keeps a
 * pointer or has a state of its own, so calls on different buffers may run at the same time. A pointer is aligned for its type. Where the length is 0
 * the pointer may be null, because nothing is read or written through it. A buffer that a call may write (one that is not const) overlaps no other
 * buffer of that call.
 *
 * Input. Nothing else is asked of the input: any bytes, any floats and any lengths get an answer, which is proved to be the one that the
 * definitions of crates/spec give. These declarations themselves are not checked against the source (crates/jidwaleb_c); they stand in its order.
 *
 * Solids. docs/SHEET.md says how a solid is packed into a sheet. Distances are taken from the origin, and a member is a matrix, which leaves the origin
 * where it is: a solid is to be centred at the origin. Coordinates and distances are compared with the absolute tolerance 1e-7, so coordinates are to
 * be handed over with all the digits of a double. README.md says what comes of a solid that is not centred, and of one that was rounded.
 *
 * Answers. An answer is one number. JIDWALEB_REFUSAL(answer) is JIDWALEB_DONE (0) where the call gave its result, and a refusal otherwise;
 * JIDWALEB_COUNT(answer) is how many types, members, rotations or copies it gave out. Later versions will have further calls, and refusals with
 * numbers from 16 on. Treat every value other than JIDWALEB_DONE as a refusal, also one that has no name here.
 *
 * Stack. JIDWALEB_MAX_STACK bytes of stack are enough for every call, however large the input is. README.md has what each call takes, as
 * tools/stack.sh measured it.
 */
#ifndef JIDWALEB_H
#define JIDWALEB_H

#include <stddef.h>
#include <stdint.h>

/* The version of this header and of the archive that was built from the same tree. */
#define JIDWALEB_VERSION_MAJOR 0
#define JIDWALEB_VERSION_MINOR 1
#define JIDWALEB_VERSION_PATCH 0
#define JIDWALEB_VERSION_STRING "0.1.0"
/* One number that rises from version to version, for #if. */
#define JIDWALEB_VERSION (JIDWALEB_VERSION_MAJOR * 10000 + JIDWALEB_VERSION_MINOR * 100 + JIDWALEB_VERSION_PATCH)

/* How long a buffer has to be so that it is long enough for every sheet, or for every copying. */
#define JIDWALEB_MAX_ELEMENTS 8192 /* elements of a sheet: cells of jidwaleb_types's `of`, and four times as many of its `table` */
#define JIDWALEB_MAX_WORDS 524352  /* the workspace `words` */
#define JIDWALEB_MAX_FLOATS 65600  /* the workspace `floats` */
#define JIDWALEB_MAX_COPIES 2048   /* copies of jidwaleb_copy */

/* How many bytes of stack are enough for every call. */
#define JIDWALEB_MAX_STACK 131072

#ifdef __cplusplus
extern "C" {
#define JIDWALEB_CAST_(type, value) (static_cast<type>(value))
#else
#define JIDWALEB_CAST_(type, value) ((type)(value))
#endif

/* What an answer says: an `enum jidwaleb_refusal`, and a uint32_t. */
#define JIDWALEB_REFUSAL(answer) JIDWALEB_CAST_(enum jidwaleb_refusal, JIDWALEB_CAST_(uint64_t, answer) >> 32)
#define JIDWALEB_COUNT(answer) JIDWALEB_CAST_(uint32_t, JIDWALEB_CAST_(uint64_t, answer) & 0xffffffffu)

/* R is the solid's rank and D its dimension. README.md says for each refusal what it means to a designer and what to try. */
enum jidwaleb_refusal {
    JIDWALEB_DONE = 0,           /* the call gave its result */
    JIDWALEB_CUT_SHEET = 1,      /* a field is not whole, bytes follow, or a filling bit is 1; in copying, a length is not whole points or matrices */
    JIDWALEB_FORMAT = 2,         /* a limit on R, D, a count or the list entries of a rank is broken; in copying, D is not 1 to 4 */
    JIDWALEB_OFF_THE_BOARD = 3,  /* a coordinate or a matrix entry is not finite, or above 1,048,576 in magnitude */
    JIDWALEB_BAD_LIST = 4,       /* a list is empty, names an element that does not exist, or does not strictly rise */
    JIDWALEB_LOOSE = 5,          /* an element below the facets is in no list */
    JIDWALEB_MITRE = 6,          /* there are not exactly two elements between an element and a sub of its sub */
    JIDWALEB_BENCH = 7,          /* the workspace is too small */
    JIDWALEB_NOT_FULL = 8,       /* search: R is below 2, or D is not R - 1 */
    JIDWALEB_DOUBLE_CORNER = 9,  /* search: two vertices are within 1e-7 of each other on every axis */
    JIDWALEB_CENTRED = 10,       /* search: no facet is further than 1e-7 from the origin */
    JIDWALEB_FLAT = 11,          /* search: the matrix of the first corners is singular, or its inverse is not finite */
    JIDWALEB_BLANK = 12,         /* search: no member was found, or no rotation; in copying, there are no points or no matrices */
    JIDWALEB_SHORT_SHEET = 13,   /* what there is to give out exceeds its buffer; in copying, also more than 2,048 copies */
    JIDWALEB_OPEN = 14,          /* copying: an image is not among the copies */
    JIDWALEB_UNSETTLED = 15,     /* the types did not settle; no sheet brings this about */
    JIDWALEB_REFUSAL_RANGE = 0x7fffffff /* no refusal: it keeps the enum wide enough for the numbers of later versions */
};

/* Which elements of a solid are alike.
 *
 * sheet          the packed solid (docs/SHEET.md). E is the number of its proper elements, which are the vertices, the edges and so on up to the
 *                facets, and I is the number of entries in its lists.
 * words, floats  the workspace: at least 16 * (E + I + 4) words and 8 * (E + 8) floats. JIDWALEB_MAX_WORDS and JIDWALEB_MAX_FLOATS are enough for
 *                every sheet. What they hold before the call has no part in the answer, and what they hold afterwards means nothing, at a
 *                refusal too.
 * of             the type of each proper element, by rising rank and index: E cells.
 * table          four cells for each type, by rising rank and type: rank, type, example (the lowest element that has it) and count. There are at
 *                most E types, so 4 * E cells are enough.
 *
 * E is at most JIDWALEB_MAX_ELEMENTS. The types of each rank are numbered from 0.
 *
 * The count is the number of types. The refusals, in the order in which they are judged, are 1 to 4 as the fields come, 7, 5, 6, 15, 13. At each of
 * them the count is 0, and `of` and `table` are as they were. Otherwise the first E cells of `of` and the first 4 * count cells of `table`
 * are written, and those behind them are as they were.
 */
uint64_t jidwaleb_types(const uint8_t *sheet, size_t sheet_length,
                        uint32_t *words, size_t words_length,
                        double *floats, size_t floats_length,
                        uint16_t *of, size_t of_length,
                        uint16_t *table, size_t table_length);

/* The symmetries of a solid, which are called its members.
 *
 * sheet, words, floats  as for the types. D is the sheet's dimension, and V the number of its vertices.
 * matrices       the members' matrices, D * D floats for each member, row by row. The image of a vertex is the matrix times the vertex as a column.
 * rows           V cells for each member: the vertex that each vertex goes to.
 * marks          one cell for each member: 1 where it is confirmed, and 0 otherwise. It is confirmed exactly when all of this holds in the solid as
 *                read: no two elements of a rank have the same set of vertices; the member's row repeats no vertex; every proper element goes to
 *                one of its rank and distance class, which is the one whose set of vertices is the image of its own; and its subs go exactly onto
 *                that one's.
 *
 * There is at most one member for each flag of the solid: 2 for each edge of a polygon, 4 for each edge of a polyhedron, and where R is 5, 4 for each
 * entry in the lists of rank 3. Members come in the order of flags. The search
 * starts from the first facet that is further than 1e-7 from the origin; where R is 2 it starts from vertex 0.
 *
 * The count is the number of members. The refusals, in the order in which they are judged, are 1 to 4 as the fields come, 7, 5, 6, 8, 9, 10, 15, 11,
 * 12, 13. At 13 the count is how many whole members fitted, and these are written. At each of the others it is 0, and the outputs are as they
 * were. Cells behind what is written are as they were.
 */
uint64_t jidwaleb_search(const uint8_t *sheet, size_t sheet_length,
                         uint32_t *words, size_t words_length,
                         double *floats, size_t floats_length,
                         double *matrices, size_t matrices_length,
                         uint16_t *rows, size_t rows_length,
                         uint8_t *marks, size_t marks_length);

/* The rotations of a solid: those of its members whose determinant is above 0, in the members' order. All buffers are as for the search, with
 * rotations in the place of members.
 *
 * The count is the number of rotations. The refusals are those of the search, in its order: 12 says that there is no rotation, though there may be
 * members; 13 says that the rotations exceed their buffers, in which other members take no room. At 13 the count is how many whole rotations fitted,
 * and these are written. At each of the others it is 0, and the outputs are as they were. Cells behind what is written are as they were.
 */
uint64_t jidwaleb_rotations(const uint8_t *sheet, size_t sheet_length,
                            uint32_t *words, size_t words_length,
                            double *floats, size_t floats_length,
                            double *matrices, size_t matrices_length,
                            uint16_t *rows, size_t rows_length,
                            uint8_t *marks, size_t marks_length);

/* Points copied by matrices. A point that is not yet among the copies is multiplied by every matrix in order, and each image that is not yet among the
 * copies joins them. Two points are the same where they are within 1e-7 of each other on every axis.
 *
 * dimension      D, from 1 to 4.
 * points         D floats for each point.
 * turns          the matrices, D * D floats each, row by row. The image of a point is the matrix times the point as a column.
 * copies         the copies found, D floats each. There are at most JIDWALEB_MAX_COPIES.
 * table          a row for each matrix, which has for each copy the number of its image among the copies. So it has as many cells as matrices
 *                times copies.
 *
 * The count is the number of copies. The refusals, in the order in which they are judged, are
 *   2, 1, 3, 12  the count is 0, and both outputs are as they were;
 *   13           the count is how many copies fitted: these are written, and the table is as it was;
 *   14           the copies are written, and the table's cells, matrices times copies, are 65,535.
 * Cells behind what is written are as they were.
 */
uint64_t jidwaleb_copy(uint64_t dimension,
                       const double *points, size_t points_length,
                       const double *turns, size_t turns_length,
                       double *copies, size_t copies_length,
                       uint16_t *table, size_t table_length);

#ifdef __cplusplus
}
#endif

#endif
