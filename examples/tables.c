/* From C, on tables in memory: a unit cube is cut, and its tetrahedra are counted by sign.

     cc -Iinclude examples/tables.c target/staticlib/libbrine.a -o tables
     ./tables */

#include <stdio.h>

#include "brinetoggle.h"

int main(void) {
  static const int32_t vertices[8 * BRINE_VERTEX_WIDTH] = {
      0, 0, 0,    1000, 0, 0,    1000, 1000, 0,    0, 1000, 0,
      0, 0, 1000, 1000, 0, 1000, 1000, 1000, 1000, 0, 1000, 1000};
  static const uint16_t elements[BRINE_ELEMENT_WIDTH] = {8, 1, 2, 3, 4, 5, 6, 7, 8};
  uint16_t tetrahedra[6 * BRINE_TETRAHEDRON_WIDTH];
  uint64_t cut[BRINE_CUT_ANSWER];
  uint64_t signs[BRINE_SIGNS_ANSWER];

  uint32_t number = brine_cut(8, 1, elements, BRINE_ELEMENT_WIDTH, tetrahedra,
                              sizeof tetrahedra / sizeof tetrahedra[0], cut);
  if (number != BRINE_DONE) {
    printf("refused: %u at %llu\n", (unsigned)number, (unsigned long long)cut[1]);
    return 1;
  }
  for (size_t k = 0; k < cut[3]; k++) {
    const uint16_t *corner = tetrahedra + k * BRINE_TETRAHEDRON_WIDTH;
    printf("%u %u %u %u\n", corner[0], corner[1], corner[2], corner[3]);
  }
  brine_signs(8, 1, elements, BRINE_ELEMENT_WIDTH, vertices,
              sizeof vertices / sizeof vertices[0], signs);
  printf("%llu positive, %llu zero, %llu negative, %llu unsound\n",
         (unsigned long long)signs[3], (unsigned long long)signs[4],
         (unsigned long long)signs[5], (unsigned long long)signs[6]);
  return 0;
}
