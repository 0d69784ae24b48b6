/* Each function of the front for C, once accepted and once refused, on the page's samples. */

#include <stdio.h>
#include <string.h>

#include "brinetoggle.h"

static int failures;

/* Whether a call returned the first number of its answer, and the answer is as expected. */
static void expect(const char *name, uint32_t returned, const uint64_t *answer, const uint64_t *expected, size_t length) {
  size_t k;
  int same = returned == expected[0];
  for (k = 0; k < length; k++) same = same && answer[k] == expected[k];
  if (same) return;
  failures++;
  printf("FAILED: %s returned %u, answer", name, (unsigned)returned);
  for (k = 0; k < length; k++) printf(" %llu", (unsigned long long)answer[k]);
  printf("\n");
}

static void expect_bytes(const char *name, const uint8_t *found, const char *expected) {
  if (memcmp(found, expected, strlen(expected)) == 0) return;
  failures++;
  printf("FAILED: %s wrote %.*s\n", name, (int)strlen(expected), (const char *)found);
}

#define EXPECT(call, ...)                                              \
  do {                                                                 \
    static const uint64_t wanted[] = {__VA_ARGS__};                    \
    size_t numbers = sizeof wanted / sizeof wanted[0];                 \
    memset(answer, 0xa5, sizeof answer);                               \
    expect(#call, call, answer, wanted, numbers);                      \
    if (answer[numbers] != 0xa5a5a5a5a5a5a5a5u) {                      \
      failures++;                                                      \
      printf("FAILED: %s wrote behind its answer\n", #call);           \
    }                                                                  \
  } while (0)

static const char prism[] =
    "VX 0 0 0\nVX 1.25 0 0\nVX 0 1.250 0\nVX 0 0 1\nVX 1.25 0 1\nVX 0 1.25 1\nPR 1 2 3 4 5 6\nEN 6 1\n";
static const char prism_cut[] =
    "VX 0.000 0.000 0.000\nVX 1.250 0.000 0.000\nVX 0.000 1.250 0.000\nVX 0.000 0.000 1.000\n"
    "VX 1.250 0.000 1.000\nVX 0.000 1.250 1.000\nTE 1 2 3 6\nTE 1 2 6 5\nTE 1 4 5 6\nEN 6 3\n";

int main(void) {
  static uint8_t output[BRINE_LONGEST_OUTPUT];
  static const uint16_t cube[9] = {8, 1, 2, 3, 4, 5, 6, 7, 8};
  static const uint16_t pair[18] = {8, 1, 2, 3, 4, 5, 6, 7, 8, 8, 5, 8, 7, 6, 9, 12, 11, 10};
  static const uint16_t twice[9] = {4, 1, 2, 3, 1};
  static const uint16_t cube_cut[24] = {1, 2, 3, 7, 1, 2, 7, 6, 1, 3, 4, 8, 1, 3, 8, 7, 1, 5, 6, 7, 1, 5, 7, 8};
  int32_t vertices[18];
  uint16_t elements[9];
  uint16_t tetrahedra[24];
  int32_t flat[24] = {0};
  uint64_t answer[8];
  const uint8_t *file = (const uint8_t *)prism;
  size_t length = sizeof prism - 1;

  EXPECT(brine_read(file, length, vertices, 18, elements, 9, answer), 0, 0, 0, 6, 1);
  EXPECT(brine_read(file, length, vertices, 17, elements, 9, answer), 9, 6, 0, 0, 0);
  EXPECT(brine_read(file, length - 1, vertices, 18, elements, 9, answer), 3, 8, 0, 0, 0);
  EXPECT(brine_judge(6, 1, elements, 9, answer), 0, 0, 0);
  EXPECT(brine_judge(12, 2, pair, 18, answer), 14, 2, 1);
  EXPECT(brine_cut(8, 1, cube, 9, tetrahedra, 23, answer), 9, 0, 0, 0);
  EXPECT(brine_cut(8, 1, cube, 9, tetrahedra, 24, answer), 0, 0, 0, 6);
  if (memcmp(tetrahedra, cube_cut, sizeof cube_cut) != 0) {
    failures++;
    printf("FAILED: brine_cut stored something else\n");
  }
  EXPECT(brine_signs(6, 1, elements, 9, vertices, 18, answer), 0, 0, 0, 3, 0, 0, 0);
  EXPECT(brine_signs(8, 1, cube, 9, flat, 24, answer), 0, 0, 0, 0, 6, 0, 1);
  flat[23] = 500001;
  EXPECT(brine_signs(8, 1, cube, 9, flat, 24, answer), 6, 8, 0, 0, 0, 0, 0);
  EXPECT(brine_write_vertex(0, -5, 1250, output, 22, answer), 0, 0, 0, 22);
  expect_bytes("brine_write_vertex", output, "VX 0.000 -0.005 1.250\n");
  EXPECT(brine_write_vertex(0, -500001, 0, output, 48, answer), 6, 1, 0, 0);
  EXPECT(brine_write_element(cube, output, 48, answer), 0, 0, 0, 19);
  expect_bytes("brine_write_element", output, "HX 1 2 3 4 5 6 7 8\n");
  EXPECT(brine_write_element(twice, output, 48, answer), 13, 1, 0, 0);
  EXPECT(brine_write_end(4096, 6144, output, 13, answer), 0, 0, 0, 13);
  expect_bytes("brine_write_end", output, "EN 4096 6144\n");
  EXPECT(brine_write_end(4096, 6145, output, 13, answer), 7, 0, 0, 0);
  EXPECT(brine_convert(file, length, output, sizeof prism_cut - 2, answer), 9, 0, 0, 0);
  EXPECT(brine_convert(file, length, output, sizeof prism_cut - 1, answer), 0, 0, 0, sizeof prism_cut - 1);
  expect_bytes("brine_convert", output, prism_cut);
  if (failures == 0) printf("tests/front.c: every call as expected\n");
  return failures != 0;
}
