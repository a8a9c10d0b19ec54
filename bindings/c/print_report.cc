// Prints the report of the trace on standard input.
#include "consistency.h"
#include <cstdio>
#include <vector>

int main() {
    std::vector<uint8_t> file(CONSISTENCY_LONGEST_FILE + 1), image(CONSISTENCY_LONGEST_IMAGE), text(CONSISTENCY_LONGEST_REPORT);
    size_t length = std::fread(file.data(), 1, file.size(), stdin);
    if (std::ferror(stdin)) return std::perror("no trace file"), 1;
    length = report_file(file.data(), length, image.data(), image.size(), text.data(), text.size());
    std::fwrite(text.data(), 1, length, stdout);
    return std::fflush(stdout) || std::ferror(stdout);
}
