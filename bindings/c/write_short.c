/* Writes the trace on standard input in its short edition to standard output, or says why not. */
#include "consistency.h"
#include <stdio.h>

int main(void) {
    static uint8_t file[CONSISTENCY_LONGEST_FILE + 1], written[CONSISTENCY_LONGEST_FILE];
    uint64_t words[CONSISTENCY_CONVERSION_WORDS];
    size_t length = fread(file, 1, sizeof file, stdin);
    if (ferror(stdin)) return perror("no trace file"), 1;
    uint64_t code = short_file(file, length, written, sizeof written, words, CONSISTENCY_CONVERSION_WORDS);
    if (code != 0) return fprintf(stderr, "code %d at record %d\n", (int)code, (int)words[1]), 1;
    fwrite(written, 1, (size_t)words[1], stdout);
    return fflush(stdout) || ferror(stdout);
}
