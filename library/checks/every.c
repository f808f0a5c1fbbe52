/* Calls a form over each example by a file of lines FORM PARTY SCRIPT WANTED STATUS, and compares what is handed out: with no room, with
   just enough, and with one byte less. The party is - but with slice. Says how many are the same, and names the others. */
#include "../fedcm.h"
#include <stdio.h>
#include <stdlib.h>
#include <string.h>

typedef struct { unsigned char *bytes; size_t size; } File;

static File read_file(const char *path) {
    FILE *file = fopen(path, "rb");
    if (file == NULL || fseek(file, 0, SEEK_END) != 0) exit(70);
    long size = ftell(file);
    rewind(file);
    File read = {malloc((size_t)size + 1), (size_t)size};
    if (read.bytes == NULL || fread(read.bytes, 1, read.size, file) != read.size) exit(70);
    fclose(file);
    return read;
}

typedef struct { const char *form, *party; } Words;

static uint8_t call(Words words, const void *bytes, size_t size, void *out, size_t room, size_t *length) {
    const char *form = words.form;
    if (strcmp(form, "slice") == 0) return fedcm_slice(words.party, strlen(words.party), bytes, size, out, room, length);
    if (strcmp(form, "save") == 0) return fedcm_save(bytes, size, out, room, length);
    if (strcmp(form, "run") == 0) return fedcm_run(bytes, size, out, room, length);
    if (strcmp(form, "check") == 0) return fedcm_check(bytes, size, out, room, length);
    if (strcmp(form, "twin") == 0) return fedcm_twin(bytes, size, out, room, length);
    if (strcmp(form, "audit") == 0) return fedcm_audit(bytes, size, out, room, length);
    if (strcmp(form, "compare") == 0) return fedcm_compare(bytes, size, out, room, length);
    exit(70);
}

/* Whether the front of the text is handed out into so much room, and nothing behind it is written. */
static int hands(Words words, File script, File wanted, int status, size_t room) {
    unsigned char *out = malloc(room + 16);
    size_t length = 0, front = room < wanted.size ? room : wanted.size;
    if (out == NULL) exit(70);
    memset(out, 0xa5, room + 16);
    int is_same = call(words, script.bytes, script.size, out, room, &length) == status && length == wanted.size &&
                  (front == 0 || memcmp(out, wanted.bytes, front) == 0);
    for (size_t at = front; at < room + 16; at++) is_same = is_same && out[at] == 0xa5;
    free(out);
    return is_same;
}

static int is_same(Words words, File script, File wanted, int status) {
    size_t length = 0;
    return call(words, script.bytes, script.size, NULL, 0, &length) == status && length == wanted.size &&
           hands(words, script, wanted, status, wanted.size) && hands(words, script, wanted, status, wanted.size + 9) &&
           (wanted.size == 0 || hands(words, script, wanted, status, wanted.size - 1));
}

/* Null pointers: where nothing has to stand, and where something has to; and words that are no party. */
static int tests_null(void) {
    size_t length = 77;
    unsigned char out[1] = {7};
    return fedcm_run(NULL, 1, out, 1, &length) == FEDCM_NULL && fedcm_run("", 0, NULL, 1, &length) == FEDCM_NULL &&
           fedcm_run("", 0, out, 1, NULL) == FEDCM_NULL && length == 77 && out[0] == 7 &&
           fedcm_slice("", 0, "", 0, out, 1, &length) == FEDCM_NO_FORM && fedcm_slice("\xff", 1, "", 0, out, 1, &length) == FEDCM_NO_FORM &&
           fedcm_slice(NULL, 1, "", 0, out, 1, &length) == FEDCM_NULL && length == 77 && out[0] == 7 &&
           fedcm_run(NULL, 0, NULL, 0, &length) == FEDCM_BAD_SCRIPT && length > 0 && fedcm_profile() == 1;
}

int main(int argc, char **argv) {
    char form[16], party[256], script[4096], wanted[4096];
    int status, same = 0, other = 0;
    FILE *list = argc == 2 ? fopen(argv[1], "r") : NULL;
    if (list == NULL) return 70;
    while (fscanf(list, "%15s %255s %4095s %4095s %d", form, party, script, wanted, &status) == 5) {
        File given = read_file(script), text = read_file(wanted);
        if (is_same((Words){form, party}, given, text, status)) {
            same++;
        } else {
            other++;
            printf("other: %s %s\n", form, script);
        }
        free(given.bytes);
        free(text.bytes);
    }
    fclose(list);
    if (!tests_null()) {
        other++;
        printf("other: null pointers\n");
    }
    printf("%d the same, %d other\n", same, other);
    return other != 0;
}
