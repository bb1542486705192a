/* timeline REQUESTS STATES: writes a picture of a run to standard output. REQUESTS are its request records, and STATES is what
 * kernel-run printed of them. */
#include "timeline.h"

static int fail(const char *why)
{
    fprintf(stderr, "timeline: %s\n", why);
    return 1;
}

int main(int argc, char **argv)
{
    static struct run run;
    if (argc != 3)
        return fail("wants a file of request records, and a file of their wide lines");
    FILE *requests = fopen(argv[1], "rb"), *lines = fopen(argv[2], "rb");
    if (!requests || !lines) {
        fprintf(stderr, "timeline: cannot open %s\n", argv[requests ? 2 : 1]);
        return 1;
    }
    if (!read_run(&run, requests, lines))
        return 1;
    draw(stdout, &run);
    return fflush(stdout) || ferror(stdout) ? fail("cannot write") : 0;
}
