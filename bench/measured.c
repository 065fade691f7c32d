/* Runs a command with its output in a file: measured FILE COMMAND WORD.. prints how many milliseconds it took, how many of
   processor time (user and system), and how many kilobytes of memory it had at most, and ends with the command's status.
   What a process of this program has before it becomes the command counts as well, about a megabyte. */
#define _GNU_SOURCE
#include <errno.h>
#include <fcntl.h>
#include <stdio.h>
#include <sys/resource.h>
#include <sys/wait.h>
#include <time.h>
#include <unistd.h>

enum { NOT_STARTED = 127 };

static int failed(const char *what)
{
    perror(what);
    return NOT_STARTED;
}

static double milliseconds_of(struct timeval time)
{
    return time.tv_sec * 1e3 + time.tv_usec / 1e3;
}

int main(int count, char **words)
{
    if (count < 3) {
        fputs("measured FILE COMMAND WORD..\n", stderr);
        return NOT_STARTED;
    }
    int output = open(words[1], O_WRONLY | O_CREAT | O_TRUNC | O_CLOEXEC, 0666);
    if (output < 0)
        return failed(words[1]);
    struct timespec start, end;
    clock_gettime(CLOCK_MONOTONIC, &start);
    pid_t child = fork();
    if (child < 0)
        return failed("fork");
    if (child == 0) {
        if (dup2(output, STDOUT_FILENO) >= 0)
            execvp(words[2], words + 2);
        _exit(failed(words[2]));
    }
    int status;
    struct rusage used;
    while (wait4(child, &status, 0, &used) < 0)
        if (errno != EINTR)
            return failed("wait4");
    clock_gettime(CLOCK_MONOTONIC, &end);
    double milliseconds = (end.tv_sec - start.tv_sec) * 1e3 + (end.tv_nsec - start.tv_nsec) / 1e6;
    double processor = milliseconds_of(used.ru_utime) + milliseconds_of(used.ru_stime);
    printf("%.3f %.3f %ld\n", milliseconds, processor, used.ru_maxrss);
    return WIFEXITED(status) ? WEXITSTATUS(status) : 128 + WTERMSIG(status);
}
