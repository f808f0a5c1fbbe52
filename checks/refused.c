// Refuses one allocation of the program that is started with this library before the C library (LD_PRELOAD): the one whose number, from 1,
// REFUSE says. Where the program comes to it, `refused` goes to standard error.
#include <errno.h>
#include <stddef.h>
#include <stdlib.h>
#include <unistd.h>

extern void *__libc_malloc(size_t size);
extern void *__libc_realloc(void *kept, size_t size);

// How many allocations are left up to the one that is refused; 0 where none will be.
static unsigned long left;

__attribute__((constructor)) static void begin(void) {
    const char *number = getenv("REFUSE");
    left = number ? strtoul(number, NULL, 10) : 0;
}

static int is_refused(void) {
    static const char said[] = "refused\n";
    if (left == 0 || --left != 0) {
        return 0;
    }
    if (write(STDERR_FILENO, said, sizeof said - 1) < 0) {
        abort();
    }
    errno = ENOMEM;
    return 1;
}

void *malloc(size_t size) { return is_refused() ? NULL : __libc_malloc(size); }

void *realloc(void *kept, size_t size) { return is_refused() ? NULL : __libc_realloc(kept, size); }
