/* Feeds each script of a file of lines SCRIPT WANTED STATUS in pieces of so many bytes, takes what is new after each, and compares the
   whole and the answers of calls out of order: pieces LIST BYTES. With the word refuse in the place of BYTES and one line in the list, each
   allocation of a run in pieces of 7 bytes is refused in turn; linked with --wrap for malloc, realloc and free. */
#include "../fedcm.h"
#include <stdio.h>
#include <stdlib.h>
#include <string.h>

void *__real_malloc(size_t size);
void *__real_realloc(void *kept, size_t size);
void __real_free(void *kept);

static unsigned long left; /* up to the one that is refused; 0 where none will be */
static long blocks;        /* that the library has */
static int is_counting, was_refused;

static int refuses(void) {
    if (!is_counting || left == 0 || --left != 0) return 0;
    was_refused = 1;
    return 1;
}

void *__wrap_malloc(size_t size) {
    void *made = refuses() ? NULL : __real_malloc(size);
    if (made != NULL) memset(made, 0xa5, size);
    blocks += is_counting && made != NULL;
    return made;
}

void *__wrap_realloc(void *kept, size_t size) {
    void *made = refuses() ? NULL : __real_realloc(kept, size);
    blocks += is_counting && made != NULL && kept == NULL;
    return made;
}

void __wrap_free(void *kept) {
    blocks -= is_counting && kept != NULL;
    __real_free(kept);
}

typedef struct { unsigned char *bytes; size_t size; } File;

static File read_file(const char *path) {
    FILE *file = fopen(path, "rb");
    if (file == NULL || fseek(file, 0, SEEK_END) != 0) exit(70);
    long size = ftell(file);
    rewind(file);
    File read = {malloc((size_t)size + 1), (size_t)size};
    if (read.bytes == NULL || fread(read.bytes, 1, read.size, file) != read.size) exit(70);
    fclose(file);
    return read;
}

/* Calls on a run that is not open. */
static int is_shut(fedcm *run) {
    unsigned char out[1] = {7};
    int is_well = fedcm_feed(run, "x", 1) == FEDCM_CLOSED && fedcm_finish(run) == FEDCM_CLOSED && fedcm_text(run, 0, out, 1) == 0;
    fedcm_close(run);
    return is_well && out[0] == 7;
}

typedef struct { int status; size_t size; int is_front; } Ended;

/* Feeds a script: the status, how much was written, and whether it was the front of what is wanted all the time. */
static Ended fed(fedcm *run, File script, File wanted, size_t piece) {
    Ended ended = {FEDCM_GOES_ON, 0, 1};
    unsigned char out[4096];
    for (size_t at = 0, last = 0; !last;) {
        size_t size = script.size - at < piece ? script.size - at : piece;
        last = at + size == script.size;
        ended.status = fedcm_feed(run, script.bytes + at, size);
        if (last && ended.status == FEDCM_GOES_ON) ended.status = fedcm_finish(run);
        at += size;
        for (size_t all; ended.size < (all = fedcm_text(run, ended.size, out, sizeof out));) {
            size_t got = all - ended.size < sizeof out ? all - ended.size : sizeof out;
            if (ended.size + got > wanted.size || memcmp(out, wanted.bytes + ended.size, got) != 0) {
                ended.is_front = 0;
                return ended;
            }
            ended.size += got;
        }
        if (ended.status != FEDCM_GOES_ON) break;
    }
    return ended;
}

/* What has ended stays so. */
static int is_over(fedcm *run, File wanted, int status) {
    unsigned char out[1];
    return fedcm_feed(run, "x\n", 2) == status && fedcm_finish(run) == status && fedcm_text(run, 0, out, 0) == wanted.size &&
           fedcm_text(run, wanted.size + 1, out, 1) == wanted.size;
}

static int is_same(File script, File wanted, int status, size_t piece) {
    fedcm run = {0};
    if (!is_shut(&run) || !fedcm_open(&run) || fedcm_open(&run)) return 0;
    Ended ended = fed(&run, script, wanted, piece);
    int is_well = ended.status == status && ended.is_front && ended.size == wanted.size && is_over(&run, wanted, status);
    fedcm_close(&run);
    return is_well && is_shut(&run);
}

/* Each allocation refused in turn: the run does not open, or ends without memory with a front, or as ever. */
static int refused(File script, File wanted, int status) {
    size_t closed = 0, none = 0, answered = 0;
    for (unsigned long number = 1;; number++) {
        fedcm run = {0};
        Ended ended = {FEDCM_NO_MEMORY, 0, 1};
        left = number;
        was_refused = 0;
        is_counting = 1;
        int is_open = fedcm_open(&run);
        if (is_open) ended = fed(&run, script, wanted, 7);
        fedcm_close(&run);
        is_counting = 0;
        int is_answer = is_open && ended.status == status && ended.size == wanted.size;
        if (blocks != 0 || !ended.is_front || !(is_answer || (was_refused && ended.status == FEDCM_NO_MEMORY))) {
            printf("other: allocation %lu refused: status %d, %ld blocks left\n", number, ended.status, blocks);
            return 1;
        }
        if (!was_refused) break;
        if (!is_open) closed++;
        else if (is_answer) answered++;
        else none++;
    }
    printf("refused allocations: %zu open no run, %zu end without memory, %zu answer as ever\n", closed, none, answered);
    return 0;
}

/* Null pointers. */
static int tests_null(void) {
    fedcm run = {0};
    unsigned char out[1];
    int is_well = !fedcm_open(NULL) && fedcm_feed(NULL, "", 0) == FEDCM_NULL && fedcm_finish(NULL) == FEDCM_NULL &&
                  fedcm_text(NULL, 0, out, 1) == 0 && fedcm_open(&run) && fedcm_feed(&run, NULL, 1) == FEDCM_NULL &&
                  fedcm_feed(&run, NULL, 0) == FEDCM_GOES_ON && fedcm_text(&run, 0, NULL, 0) == 0;
    fedcm_close(NULL);
    fedcm_close(&run);
    return is_well;
}

int main(int argc, char **argv) {
    char script[4096], wanted[4096];
    int status, same = 0, other = 0;
    FILE *list = argc == 3 ? fopen(argv[1], "r") : NULL;
    if (list == NULL) return 70;
    while (fscanf(list, "%4095s %4095s %d", script, wanted, &status) == 3) {
        File given = read_file(script), text = read_file(wanted);
        if (strcmp(argv[2], "refuse") == 0) return refused(given, text, status);
        if (is_same(given, text, status, (size_t)atol(argv[2]))) {
            same++;
        } else {
            other++;
            printf("other: %s\n", script);
        }
        free(given.bytes);
        free(text.bytes);
    }
    fclose(list);
    if (!tests_null()) {
        other++;
        printf("other: null pointers\n");
    }
    printf("%d the same, %d other\n", same, other);
    return other != 0;
}
