/* Did the store of the trace on standard input keep snapshot isolation? */
#include "consistency.h"
#include <stdio.h>

int main(void) {
    static uint8_t file[CONSISTENCY_LONGEST_FILE + 1], image[CONSISTENCY_LONGEST_IMAGE];
    uint64_t words[CONSISTENCY_JUDGE_WORDS];
    size_t length = fread(file, 1, sizeof file, stdin);
    if (ferror(stdin)) return perror("no trace file"), 1;
    uint64_t code = judge_file(file, length, image, sizeof image, words, CONSISTENCY_JUDGE_WORDS);
    const uint64_t *si = words + CONSISTENCY_SI;
    if (code != 0) printf("code %d at record %d\n", (int)code, (int)words[1]);
    else if (si[0] == 0) puts("yes");
    else printf("no, see record %d\n", (int)si[1]);
    return fflush(stdout) || ferror(stdout);
}
