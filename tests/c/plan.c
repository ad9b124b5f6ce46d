/* A library to preload: what read on standard input and write on standard output do. READS and WRITES are plans, one
 * word a call: a number lets at most so many bytes through, the name of an error makes the call fail. After its last
 * word a plan is as if there were none. */
#include <errno.h>
#include <stdlib.h>
#include <string.h>
#include <sys/syscall.h>
#include <sys/types.h>
#include <unistd.h>

struct plan {
    const char *name;
    const char *rest;
};

static int error_of(const char *word) {
    if (strncmp(word, "EINTR", 5) == 0) return EINTR;
    if (strncmp(word, "EAGAIN", 6) == 0) return EAGAIN;
    if (strncmp(word, "ENOSPC", 6) == 0) return ENOSPC;
    return EIO;
}

/* The next word of a plan: the error that the call gets, or 0 and the count of bytes lowered. */
static int next(struct plan *plan, size_t *count) {
    if (plan->rest == NULL && (plan->rest = getenv(plan->name)) == NULL) plan->rest = "";
    const char *word = plan->rest + strspn(plan->rest, " ");
    size_t length = strcspn(word, " ");
    if (length == 0) return 0;
    plan->rest = word + length;
    if (*word == 'E') return error_of(word);
    size_t most = strtoul(word, NULL, 10);
    if (most < *count) *count = most;
    return 0;
}

ssize_t read(int fd, void *buf, size_t count) {
    static struct plan reads = {"READS", NULL};
    if (fd == 0 && (errno = next(&reads, &count)) != 0) return -1;
    return syscall(SYS_read, fd, buf, count);
}

ssize_t write(int fd, const void *buf, size_t count) {
    static struct plan writes = {"WRITES", NULL};
    if (fd == 1 && (errno = next(&writes, &count)) != 0) return -1;
    return syscall(SYS_write, fd, buf, count);
}
