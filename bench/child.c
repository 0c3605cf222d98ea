/* Runs a program and tells what it took: the peak of a process is never told below what the one that began it had at
   that moment, and this one has little.

   child OUT PROGRAM WORD..

   OUT gets its wait status, its microseconds of the processor (user and system) and its peak in kilobytes. */

#include <fcntl.h>
#include <stdio.h>
#include <stdlib.h>
#include <sys/resource.h>
#include <sys/wait.h>
#include <unistd.h>

static long long microseconds(struct timeval time) { return time.tv_sec * 1000000LL + time.tv_usec; }

int main(int count, char **words) {
    if (count < 3) return 2;
    pid_t child = fork();
    if (child == 0) {
        execv(words[2], words + 2);
        perror(words[2]);
        _exit(127);
    }
    int status;
    struct rusage taken;
    if (child < 0 || wait4(child, &status, 0, &taken) != child) {
        perror("child");
        return 1;
    }
    FILE *out = fopen(words[1], "w");
    if (!out) {
        perror(words[1]);
        return 1;
    }
    long long time = microseconds(taken.ru_utime) + microseconds(taken.ru_stime);
    fprintf(out, "%d %lld %ld\n", status, time, taken.ru_maxrss);
    return fclose(out) != 0;
}
