/* The C library's read, for tests/failed_reads.sh, which puts it before the real one (LD_PRELOAD). Standard input is handed out in pieces of
 * at most PIECE bytes. Read number FAIL of it (from 1) is not made: it fails with the error number ERROR, or, where that is 0, says that the
 * input has ended. The file FORCED is made when that happens. */
#define _GNU_SOURCE
#include <errno.h>
#include <fcntl.h>
#include <stdlib.h>
#include <sys/syscall.h>
#include <unistd.h>

static long number(const char *name) {
    const char *text = getenv(name);
    return text ? atol(text) : 0;
}

ssize_t read(int fd, void *buffer, size_t size) {
    static long reads;
    size_t piece = (size_t)number("PIECE");
    if (fd == 0 && ++reads == number("FAIL")) {
        close(open(getenv("FORCED"), O_WRONLY | O_CREAT, 0644));
        errno = (int)number("ERROR");
        return errno ? -1 : 0;
    }
    return syscall(SYS_read, fd, buffer, fd == 0 && size > piece ? piece : size);
}
