/* Runs a program with a pipe that does not block: `pipes in PROGRAM` feeds it standard input in pieces with pauses,
 * `pipes out PROGRAM` takes what it writes slowly, out of a pipe that holds 4,096 bytes, and copies it to standard
 * output. The status is 0 where all of that could be done. */
#define _GNU_SOURCE
#include <fcntl.h>
#include <string.h>
#include <sys/wait.h>
#include <time.h>
#include <unistd.h>

static void rest_a_little(void) {
    struct timespec little = {0, 2000000};
    nanosleep(&little, NULL);
}

/* Copies all bytes, at most `piece` at a time, each after a pause. */
static int copy_slowly(int from, int to, size_t piece) {
    char bytes[1024];
    ssize_t got;
    rest_a_little();
    while ((got = read(from, bytes, piece)) > 0) {
        if (write(to, bytes, (size_t)got) != got) return 1;
        rest_a_little();
    }
    return got < 0;
}

int main(int count, char **words) {
    int ends[2];
    if (count != 3 || pipe(ends) != 0) return 2;
    int feeds = strcmp(words[1], "in") == 0;
    int programs_end = feeds ? ends[0] : ends[1], our_end = feeds ? ends[1] : ends[0];
    if (fcntl(programs_end, F_SETFL, O_NONBLOCK) != 0 || fcntl(our_end, F_SETPIPE_SZ, 4096) < 0) return 2;
    pid_t child = fork();
    if (child < 0) return 2;
    if (child == 0) {
        dup2(programs_end, feeds ? 0 : 1);
        close(ends[0]);
        close(ends[1]);
        execl(words[2], words[2], (char *)NULL);
        _exit(127);
    }
    close(programs_end);
    int failed = feeds ? copy_slowly(0, our_end, 7) : copy_slowly(our_end, 1, 1024);
    close(our_end);
    int status;
    if (waitpid(child, &status, 0) != child) return 2;
    return failed || !WIFEXITED(status) || WEXITSTATUS(status) != 0;
}
