/* In which order can the commits of the image on standard input have been made, each from a view of everything? */
#include "consistency.h"
#include <stdio.h>

int main(void) {
    static uint8_t image[CONSISTENCY_LONGEST_IMAGE + 1], shown[CONSISTENCY_MOST_COMMITS];
    uint64_t words[CONSISTENCY_IMAGE_WORDS];
    size_t length = fread(image, 1, sizeof image, stdin), i;
    if (ferror(stdin)) return perror("no image"), 1;
    uint64_t code = judge_image(image, length, shown, sizeof shown, words, CONSISTENCY_IMAGE_WORDS);
    if (code != 0 && code != 19) printf("code %d\n", (int)code);
    else {
        printf(code == 0 ? "in this order: [" : "in none, see [");
        for (i = 0; i < words[1]; i++) printf(i == 0 ? "%d" : ", %d", (int)shown[i]);
        puts("]");
    }
    return fflush(stdout) || ferror(stdout);
}
