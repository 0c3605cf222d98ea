/* Answers each RUN with the same row at once, and each other statement with none: what a pipe and the driver take
   without an engine. A statement comes in one read, since the next one is sent behind its report. */
#include <stdio.h>
#include <string.h>
#include <unistd.h>

static const char opening[] = "open defs 0 bound 2 257 used 2 0\n";
static char room[65536];

static int put(const char *text)
{
    ssize_t length = (ssize_t)strlen(text);
    return write(1, text, length) == length;
}

int main(void)
{
    char report[128];
    if (!put(opening))
        return 4;
    for (long number = 1; read(0, room, sizeof room) > 0; number++) {
        const char *form = room[0] == 'R' ? "row 'value 7'\n%ld ok rows 1 bound 1 1 used 1 1\n"
                                          : "%ld ok bound 1 1 used 1 1\n";
        snprintf(report, sizeof report, form, number);
        if (!put(report))
            return 4;
    }
    return 0;
}
