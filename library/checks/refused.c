/* Refuses each allocation of one call in turn: FORM SCRIPT WANTED STATUS. A call of which one is refused answers that there is no memory,
   and then nothing is handed out, or it answers as if nothing had been refused. After each call no block of the library is left. Linked
   with --wrap for malloc, realloc and free, so that the library's calls come here. */
#include "../fedcm.h"
#include <stdio.h>
#include <stdlib.h>
#include <string.h>

void *__real_malloc(size_t size);
void *__real_realloc(void *kept, size_t size);
void __real_free(void *kept);

static unsigned long left; /* up to the one that is refused; 0 where none will be */
static long blocks;        /* that the library has */
static int is_counting, was_refused;

static int refuses(void) {
    if (!is_counting || left == 0 || --left != 0) return 0;
    was_refused = 1;
    return 1;
}

void *__wrap_malloc(size_t size) {
    void *made = refuses() ? NULL : __real_malloc(size);
    if (made != NULL) memset(made, 0xa5, size);
    blocks += is_counting && made != NULL;
    return made;
}

void *__wrap_realloc(void *kept, size_t size) {
    void *made = refuses() ? NULL : __real_realloc(kept, size);
    blocks += is_counting && made != NULL && kept == NULL;
    return made;
}

void __wrap_free(void *kept) {
    blocks -= is_counting && kept != NULL;
    __real_free(kept);
}

static unsigned char *read_file(const char *path, size_t *size) {
    FILE *file = fopen(path, "rb");
    if (file == NULL || fseek(file, 0, SEEK_END) != 0) exit(70);
    *size = (size_t)ftell(file);
    rewind(file);
    unsigned char *bytes = malloc(*size + 1);
    if (bytes == NULL || fread(bytes, 1, *size, file) != *size) exit(70);
    fclose(file);
    return bytes;
}

static fedcm_form *form_of(const char *form) {
    if (strcmp(form, "run") == 0) return fedcm_run;
    if (strcmp(form, "twin") == 0) return fedcm_twin;
    if (strcmp(form, "audit") == 0) return fedcm_audit;
    if (strcmp(form, "compare") == 0) return fedcm_compare;
    if (strcmp(form, "save") == 0) return fedcm_save;
    return fedcm_check;
}

int main(int argc, char **argv) {
    if (argc != 5) return 70;
    size_t script_size, wanted_size, none = 0, answered = 0;
    unsigned char *script = read_file(argv[2], &script_size), *wanted = read_file(argv[3], &wanted_size);
    unsigned char *out = malloc(wanted_size + 1);
    int status = atoi(argv[4]);
    if (out == NULL) return 70;
    for (unsigned long number = 1;; number++) {
        size_t length = 77;
        memset(out, 0x5a, wanted_size + 1);
        left = number;
        was_refused = 0;
        is_counting = 1;
        int at = fedcm_guarded(form_of(argv[1]), script, script_size, out, wanted_size, &length);
        is_counting = 0;
        int is_kept = length == 77;
        for (size_t place = 0; place < wanted_size; place++) is_kept = is_kept && out[place] == 0x5a;
        int is_answer = at == status && length == wanted_size && memcmp(out, wanted, wanted_size) == 0;
        if (blocks != 0 || !(is_answer || (was_refused && at == FEDCM_NO_MEMORY && is_kept))) {
            printf("other: %s, allocation %lu refused: status %d, %ld blocks left\n", argv[2], number, at, blocks);
            return 1;
        }
        if (!was_refused) break;
        is_answer ? answered++ : none++;
    }
    printf("%s %s: %zu refused allocations end without memory, %zu answer as ever\n", argv[1], argv[2], none, answered);
    return 0;
}
