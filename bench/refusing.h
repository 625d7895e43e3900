/* Which of the calls that a library takes are refused, of the program that it is loaded into:
   LD_PRELOAD=library.so REFUSE=.. program.

   REFUSE is "N", and the Nth call is refused, or "N-", and each from the Nth on. REFUSE_COUNT names a file, to
   which the number of calls is written at the end. */
#include "loaded.h"

static atomic_long made;
static long first = -1, last = -1;

__attribute__((constructor)) static void begin(void) {
    const char *text = getenv("REFUSE");
    if (!text)
        return;
    char *end;
    long number = strtol(text, &end, 10);
    last = *end == '-' ? __LONG_MAX__ : number;
    first = number;
    atomic_store(&made, 0);
}

static void tell(void) {
    char line[32];
    snprintf(line, sizeof line, "%ld\n", atomic_load(&made));
    tell_line("REFUSE_COUNT", line);
}

/* Counts a call, and says whether it is refused. */
static int is_refused(int error) {
    if (first < 0)
        return 0;
    long number = atomic_fetch_add(&made, 1) + 1;
    if (number < first || number > last)
        return 0;
    errno = error;
    return 1;
}
