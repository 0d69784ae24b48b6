/* From C: the text of a mesh on standard input, the text of its cut on standard output.

     cc -Iinclude examples/convert.c target/staticlib/libbrine.a -o convert
     ./convert < examples/shell-wall.mesh

   Status 0 for a cut mesh, 1 for a refusal, 2 where standard input or output fails. */

#include <stdio.h>

#include "brinetoggle.h"

/* One byte past the limit is enough to see that a file is too long. */
static uint8_t input[BRINE_FILE_LIMIT + 1];
static uint8_t output[BRINE_LONGEST_OUTPUT];

int main(void) {
  uint64_t answer[BRINE_CONVERT_ANSWER];
  size_t length = fread(input, 1, sizeof input, stdin);
  if (ferror(stdin)) {
    perror("standard input");
    return 2;
  }
  if (brine_convert(input, length, output, sizeof output, answer) != BRINE_DONE) {
    printf("NO %llu %llu %llu\n", (unsigned long long)answer[0],
           (unsigned long long)answer[1], (unsigned long long)answer[2]);
    return 1;
  }
  if (fwrite(output, 1, (size_t)answer[3], stdout) != answer[3] || fflush(stdout) != 0) {
    perror("standard output");
    return 2;
  }
  return 0;
}
