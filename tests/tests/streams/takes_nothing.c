/* A `write` that takes no byte for standard output and does not fail, to stand before the system's own. */
#include <sys/syscall.h>
#include <unistd.h>

ssize_t write(int fd, const void *bytes, size_t length) {
    return fd == STDOUT_FILENO ? 0 : syscall(SYS_write, fd, bytes, length);
}
