/* Preloaded into a program, makes one of its reads of standard input or one of its writes to standard output fail: the one
 * whose number, from 1, stands in FAILED_READ or FAILED_WRITE, with the error whose number stands in FAILED_WITH. No read
 * or write takes more bytes than AT_MOST says, so that there are many. Where it has made one fail it makes the file whose
 * name stands in FAILED_MARK. */
#include <errno.h>
#include <fcntl.h>
#include <stdlib.h>
#include <sys/syscall.h>
#include <unistd.h>

static unsigned long reads;
static unsigned long writes;

static unsigned long number_in(const char *name) {
    const char *text = getenv(name);
    return text == NULL ? 0 : strtoul(text, NULL, 10);
}

static int fails(unsigned long call, const char *wanted) {
    if (call != number_in(wanted)) return 0;
    const char *mark = getenv("FAILED_MARK");
    if (mark != NULL) {
        int file = open(mark, O_CREAT | O_WRONLY, 0600);
        if (file >= 0) close(file);
    }
    errno = (int)number_in("FAILED_WITH");
    return 1;
}

static size_t at_most(size_t count) {
    unsigned long most = number_in("AT_MOST");
    return most != 0 && count > most ? most : count;
}

ssize_t read(int file, void *bytes, size_t count) {
    if (file != STDIN_FILENO) return syscall(SYS_read, file, bytes, count);
    if (fails(++reads, "FAILED_READ")) return -1;
    return syscall(SYS_read, file, bytes, at_most(count));
}

ssize_t write(int file, const void *bytes, size_t count) {
    if (file != STDOUT_FILENO) return syscall(SYS_write, file, bytes, count);
    if (fails(++writes, "FAILED_WRITE")) return -1;
    return syscall(SYS_write, file, bytes, at_most(count));
}
