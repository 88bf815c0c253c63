/* peak PROGRAM: runs it and tells its peak memory in KiB and its processor time in seconds on the
 * standard error. A process begins with the peak of the one that started it: this one is small. */
#include <stdio.h>
#include <sys/resource.h>
#include <sys/wait.h>
#include <unistd.h>

static double seconds(struct timeval time) { return time.tv_sec + time.tv_usec / 1e6; }

int main(int count, char **words) {
    int status = 0;
    struct rusage used;
    pid_t child = count > 1 ? fork() : -1;
    if (child < 0)
        return 2;
    if (child == 0) {
        execv(words[1], words + 1);
        _exit(127);
    }
    wait4(child, &status, 0, &used);
    fprintf(stderr, "%ld %.3f\n", used.ru_maxrss, seconds(used.ru_utime) + seconds(used.ru_stime));
    return status != 0;
}
