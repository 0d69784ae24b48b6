/* Brinetoggle for C: meshes of tetrahedra, pyramids, prisms and hexahedra, read, judged, cut into
   tetrahedra and written, by the proved library target/staticlib/libbrine.a ('tools/library.sh').

   Every function judges its own input, names the first fault, and on a refusal writes no number of
   the memory that it is lent; an accepted call writes its records only and leaves what stands behind them.

   Memory is lent as a pointer and a length, and a length counts numbers, not bytes. A pointer is
   never NULL and is aligned for its type, also where the length is 0; memory that is written overlaps
   no other memory of the same call. Nothing is kept after a call, so calls may run side by side.
   brine_convert keeps its tables on the stack, about 450 KB, and brine_read about 70 KB; the others need about 30 KB.

   The answer array is written whole by every call. Its first three numbers are the refusal's number,
   which is also the value returned, its place and the second number; the entry's own numbers follow,
   all 0 where the call is refused. */

#ifndef BRINETOGGLE_H
#define BRINETOGGLE_H

#include <stddef.h>
#include <stdint.h>

#ifdef __cplusplus
extern "C" {
#endif

/* Limits. */
#define BRINE_FILE_LIMIT 65536        /* bytes of a file */
#define BRINE_VERTEX_LIMIT 4096       /* vertices of a mesh */
#define BRINE_ELEMENT_LIMIT 1024      /* elements of a mesh that is read or cut */
#define BRINE_TETRAHEDRON_LIMIT 6144  /* tetrahedra of a cut, and elements that EN may count when written */
#define BRINE_COORDINATE_LIMIT 500000 /* thousandths of a millimetre, either way */

/* Widths: how many numbers a record takes in a table. */
#define BRINE_VERTEX_WIDTH 3      /* x, y, z in thousandths of a millimetre */
#define BRINE_ELEMENT_WIDTH 9     /* kind (4, 5, 6 or 8), then eight vertex numbers, unused ones 0 */
#define BRINE_TETRAHEDRON_WIDTH 4 /* four vertex numbers */

/* Tables of these lengths are long enough for every mesh, buffers of these for every record and every cut. */
#define BRINE_VERTEX_ROOM (BRINE_VERTEX_WIDTH * BRINE_VERTEX_LIMIT)
#define BRINE_ELEMENT_ROOM (BRINE_ELEMENT_WIDTH * BRINE_ELEMENT_LIMIT)
#define BRINE_TETRAHEDRON_ROOM (BRINE_TETRAHEDRON_WIDTH * BRINE_TETRAHEDRON_LIMIT)
#define BRINE_LONGEST_RECORD 43 /* bytes of a written line */
#define BRINE_LONGEST_OUTPUT (30 * BRINE_VERTEX_LIMIT + 23 * BRINE_TETRAHEDRON_LIMIT + 13)

/* Lengths of the answer arrays. */
#define BRINE_READ_ANSWER 5
#define BRINE_JUDGE_ANSWER 3
#define BRINE_CUT_ANSWER 4
#define BRINE_SIGNS_ANSWER 7
#define BRINE_WRITE_ANSWER 4
#define BRINE_CONVERT_ANSWER 4

/* Refusals, and what the place is: the line when reading, otherwise the element or vertex from 1, and 0
   where neither is at fault. JOIN has the later element as place and the earlier as second number. */
enum brine_refusal {
  BRINE_DONE = 0,   /* accepted */
  BRINE_LONG = 1,   /* the file is above 65,536 bytes */
  BRINE_MARK = 2,   /* an unknown or short mark, VX after an element, any line after EN */
  BRINE_SHAPE = 3,  /* a wrong number of fields, wrong spacing, or no byte 10 at the end */
  BRINE_COMMA = 4,  /* a coordinate holds a comma */
  BRINE_NUMBER = 5, /* a field is not of the stated form */
  BRINE_RANGE = 6,  /* a coordinate beyond the limits */
  BRINE_MANY = 7,   /* a count above its limit */
  BRINE_VERTEX = 8, /* a vertex number 0 or above the vertex count */
  BRINE_ROOM = 9,   /* a lent table or buffer too short */
  BRINE_END = 10,   /* no EN line, or EN counts that differ from the file's */
  BRINE_KIND = 11,  /* a kind other than 4, 5, 6, 8 */
  BRINE_SPARE = 12, /* an unused vertex number that is not zero */
  BRINE_REPEAT = 13, /* a vertex twice in one element */
  BRINE_JOIN = 14   /* two elements that do not fit */
};

/* Reads a file into both tables. answer: number, place, second, vertices, elements. */
uint32_t brine_read(const uint8_t *file, size_t file_length,
                    int32_t *vertices, size_t vertices_length,
                    uint16_t *elements, size_t elements_length,
                    uint64_t answer[BRINE_READ_ANSWER]);

/* Judges the counts, the elements and how they fit. answer: number, place, second. */
uint32_t brine_judge(size_t vertex_count, size_t element_count,
                     const uint16_t *elements, size_t elements_length,
                     uint64_t answer[BRINE_JUDGE_ANSWER]);

/* Judges, then cuts into the table of tetrahedra. answer: number, place, second, tetrahedra. */
uint32_t brine_cut(size_t vertex_count, size_t element_count,
                   const uint16_t *elements, size_t elements_length,
                   uint16_t *tetrahedra, size_t tetrahedra_length,
                   uint64_t answer[BRINE_CUT_ANSWER]);

/* Judges, then counts the cut's tetrahedra by the sign of their volume, and the elements with one that is not
   positive. answer: number, place, second, positive, zero, negative, unsound. */
uint32_t brine_signs(size_t vertex_count, size_t element_count,
                     const uint16_t *elements, size_t elements_length,
                     const int32_t *vertices, size_t vertices_length,
                     uint64_t answer[BRINE_SIGNS_ANSWER]);

/* Each writes one line into the buffer. answer: number, place, second, length. */
uint32_t brine_write_vertex(int32_t x, int32_t y, int32_t z,
                            uint8_t *buffer, size_t buffer_length,
                            uint64_t answer[BRINE_WRITE_ANSWER]);
uint32_t brine_write_element(const uint16_t record[BRINE_ELEMENT_WIDTH],
                             uint8_t *buffer, size_t buffer_length,
                             uint64_t answer[BRINE_WRITE_ANSWER]);
uint32_t brine_write_end(size_t vertices, size_t elements,
                         uint8_t *buffer, size_t buffer_length,
                         uint64_t answer[BRINE_WRITE_ANSWER]);

/* The whole conversion, from the text of a mesh to the text of its cut. answer: number, place, second, length. */
uint32_t brine_convert(const uint8_t *input, size_t input_length,
                       uint8_t *output, size_t output_length,
                       uint64_t answer[BRINE_CONVERT_ANSWER]);

#ifdef __cplusplus
}
#endif

#endif
