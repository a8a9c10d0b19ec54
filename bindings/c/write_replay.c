/* Writes the replay of the trace on standard input to standard output, or says why there is none. */
#include "consistency.h"
#include <stdio.h>

int main(void) {
    static uint8_t file[CONSISTENCY_LONGEST_FILE + 1], replay[CONSISTENCY_LONGEST_REPLAY];
    uint64_t words[CONSISTENCY_REPLAY_WORDS];
    size_t length = fread(file, 1, sizeof file, stdin);
    if (ferror(stdin)) return perror("no trace file"), 1;
    uint64_t code = replay_file(file, length, replay, sizeof replay, words, CONSISTENCY_REPLAY_WORDS);
    if (code != 0) return fprintf(stderr, "code %d at record %d\n", (int)code, (int)words[1]), 1;
    fwrite(replay, 1, (size_t)words[1], stdout);
    return fflush(stdout) || ferror(stdout);
}
