/* A program that stands for a built one in the suite of refused memory: it allocates for each line of the file that LINES_OF
 * names, first before any is printed, and then before each. FAULT says what it does wrong where an allocation is refused: 0 nothing, 1 it prints all
 * the same, 2 it tells another fault, 3 it prints another line first, 4 its status is 0, 5 it allocates ever more, so that no
 * run goes through, 6 it allocates nothing at all. */
#include <fcntl.h>
#include <stdlib.h>
#include <string.h>
#include <unistd.h>

static char text[1 << 20];

static void say(int to, const char *from, size_t count) {
    while (count > 0) {
        ssize_t written = write(to, from, count);
        if (written <= 0)
            _exit(9);
        from += written;
        count -= written;
    }
}

static const char *after_line(const char *rest) {
    return strchr(rest, '\n') + 1;
}

/* Tells of a refused allocation. */
static int stopped(void) {
    const char *fault = FAULT == 2 ? "fault 2\n" : "fault 1\n";
    if (FAULT == 3)
        say(1, "another line\n", 13);
    say(2, fault, strlen(fault));
    return FAULT == 4 ? 0 : 4;
}

/* Whether an allocation is refused, and that counts. */
static int is_refused(void) {
    void *volatile taken = FAULT == 6 ? text : malloc(40);
    if (taken && FAULT != 6)
        free(taken);
    return !taken && FAULT != 1;
}

int main(void) {
    const char *wanted = getenv("REFUSE_ALLOC"), *rest;
    int file = open(getenv("LINES_OF"), O_RDONLY);
    if (file < 0 || read(file, text, sizeof text - 1) < 0)
        return 9;
    if (FAULT == 5)
        for (long left = wanted ? atol(wanted) : 0; left > 0; left--)
            is_refused();
    for (rest = text; *rest; rest = after_line(rest))
        if (is_refused() || is_refused()) {
            say(1, text, rest - text);
            return stopped();
        }
    for (rest = text; *rest; rest = after_line(rest)) {
        if (is_refused())
            return stopped();
        say(1, rest, after_line(rest) - rest);
    }
    return 0;
}
