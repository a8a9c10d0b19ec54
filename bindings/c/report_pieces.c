/* Prints the report of the trace on standard input, which it takes piece by piece, as it comes. */
#include "consistency.h"
#include <stdio.h>

int main(void) {
    static uint8_t kept[CONSISTENCY_LONGEST_FILE], image[CONSISTENCY_LONGEST_IMAGE], text[CONSISTENCY_LONGEST_REPORT], piece[4096];
    struct consistency_session session;
    size_t length = 1;
    open_session(&session);
    while (length != 0 && session.total <= CONSISTENCY_LONGEST_FILE) {
        length = fread(piece, 1, sizeof piece, stdin);
        push_piece(&session, kept, sizeof kept, piece, length);
    }
    if (ferror(stdin)) return perror("no trace file"), 1;
    length = report_session(&session, kept, sizeof kept, image, sizeof image, text, sizeof text);
    fwrite(text, 1, length, stdout);
    return fflush(stdout) || ferror(stdout);
}
