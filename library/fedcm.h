/* The program as a C library: text in, text out. docs/library.md says what is promised, and what a caller owes.

   Each form takes bytes and hands out its text: into `out`, as much as there is room for, and its length, which may be more, into `*size`.
   It answers a status. With FEDCM_NO_MEMORY, FEDCM_NO_FORM and FEDCM_NULL nothing is handed out, and `out` and `*size` are as they were.
   Whatever the bytes are, it ends. It keeps nothing between calls, and calls malloc, realloc and free and nothing else. */
#ifndef FEDCM_H
#define FEDCM_H
#include <stdbool.h>
#include <stddef.h>
#include <stdint.h>
#ifdef __cplusplus
extern "C" {
#endif

enum {
    FEDCM_DONE = 0,
    FEDCM_NO_FORM = 1,    /* fedcm_slice alone: the party has no byte, or is no UTF-8 */
    FEDCM_BAD_SCRIPT = 2, /* a line is bad: the last record names it */
    FEDCM_NO_MEMORY = 5,
    FEDCM_TOO_LONG = 6,  /* more than 67,108,864 bytes */
    FEDCM_NOT_TWINS = 7, /* fedcm_twin alone */
    FEDCM_FAULTY = 8,    /* fedcm_audit alone */
    FEDCM_NOT_SAVED = 9, /* fedcm_save alone */
    FEDCM_DIFFERS = 10,  /* fedcm_compare alone */
    FEDCM_NULL = 253,    /* a pointer is null where something has to stand; by this header, not by the library */
    FEDCM_CLOSED = 254,  /* a run is not open */
    FEDCM_GOES_ON = 255  /* a run goes on */
};

/* The version of the profile: the number of the member `fedcm` in a script's header. */
uint32_t fedcm_profile(void);

/* These take no null pointer, and `out`, `size` and the bytes don't overlap. With this header a call of one of these names, as
   fedcm_run(script, script_size, out, room, &size), tests for null pointers first (see below). */
typedef uint8_t fedcm_form(const unsigned char *bytes, size_t bytes_size, unsigned char *out, size_t room, size_t *size);
fedcm_form fedcm_run;     /* a script: its transcript */
fedcm_form fedcm_check;   /* a script: each bad line, and each member that is read over */
fedcm_form fedcm_twin;    /* two scripts, which the line {"next":"script"} divides: whether they are twins */
fedcm_form fedcm_audit;   /* a script and a transcript, which the line {"next":"transcript"} divides: whether it keeps the rules */
fedcm_form fedcm_compare; /* the same: where it first leaves the transcript of fedcm_run */
fedcm_form fedcm_save;    /* a script: one that brings back the state that it leaves behind */

/* A script: its lines that concern a party, as shop.example, and all that it is linked with. */
uint8_t fedcm_slice(const unsigned char *party, size_t party_size, const unsigned char *script, size_t script_size, unsigned char *out,
                    size_t room, size_t *size);

/* A null pointer with a size of 0 is no bytes, or no room; with another size, and in the place of `size`, it is refused. */
static inline uint8_t fedcm_guarded(fedcm_form *form, const void *bytes, size_t bytes_size, void *out, size_t room, size_t *size) {
    static const unsigned char none[1] = {0};
    unsigned char spare[1] = {0};
    if ((bytes == NULL && bytes_size != 0) || (out == NULL && room != 0) || size == NULL) {
        return FEDCM_NULL;
    }
    return form(bytes == NULL ? none : (const unsigned char *)bytes, bytes_size, out == NULL ? spare : (unsigned char *)out, room, size);
}

static inline uint8_t fedcm_guarded_slice(const void *party, size_t party_size, const void *script, size_t script_size, void *out,
                                          size_t room, size_t *size) {
    static const unsigned char none[1] = {0};
    unsigned char spare[1] = {0};
    if ((party == NULL && party_size != 0) || (script == NULL && script_size != 0) || (out == NULL && room != 0) || size == NULL) {
        return FEDCM_NULL;
    }
    return fedcm_slice(party == NULL ? none : (const unsigned char *)party, party_size,
                       script == NULL ? none : (const unsigned char *)script, script_size, out == NULL ? spare : (unsigned char *)out,
                       room, size);
}
#define fedcm_run(bytes, bytes_size, out, room, size) fedcm_guarded(fedcm_run, bytes, bytes_size, out, room, size)
#define fedcm_check(bytes, bytes_size, out, room, size) fedcm_guarded(fedcm_check, bytes, bytes_size, out, room, size)
#define fedcm_twin(bytes, bytes_size, out, room, size) fedcm_guarded(fedcm_twin, bytes, bytes_size, out, room, size)
#define fedcm_audit(bytes, bytes_size, out, room, size) fedcm_guarded(fedcm_audit, bytes, bytes_size, out, room, size)
#define fedcm_compare(bytes, bytes_size, out, room, size) fedcm_guarded(fedcm_compare, bytes, bytes_size, out, room, size)
#define fedcm_save(bytes, bytes_size, out, room, size) fedcm_guarded(fedcm_save, bytes, bytes_size, out, room, size)
#define fedcm_slice(party, party_size, script, script_size, out, room, size) \
    fedcm_guarded_slice(party, party_size, script, script_size, out, room, size)

/* A script that comes in pieces, which may end anywhere. A run begins as zeros, is never copied and never written by C, and one thread
   uses it at a time. While it goes on its text is what the lines say that have ended; once it has ended, the whole transcript. */
typedef struct {
    bool is_open;
    void *held;
} fedcm;

bool fedcm_open(fedcm *run);                                                   /* false: no memory, or open before */
uint8_t fedcm_feed(fedcm *run, const unsigned char *piece, size_t piece_size); /* FEDCM_GOES_ON, or the status by which it ended */
uint8_t fedcm_finish(fedcm *run);                                              /* the pieces are all: the status */
size_t fedcm_text(fedcm *run, size_t from, unsigned char *out, size_t room);   /* its text from a place on; answers its whole length */
void fedcm_close(fedcm *run);                                                  /* frees what it holds, if it is open */

static inline bool fedcm_guarded_open(fedcm *run) { return run != NULL && fedcm_open(run); }

static inline uint8_t fedcm_guarded_feed(fedcm *run, const void *piece, size_t piece_size) {
    static const unsigned char none[1] = {0};
    if (run == NULL || (piece == NULL && piece_size != 0)) {
        return FEDCM_NULL;
    }
    return fedcm_feed(run, piece == NULL ? none : (const unsigned char *)piece, piece_size);
}

static inline uint8_t fedcm_guarded_finish(fedcm *run) { return run == NULL ? (uint8_t)FEDCM_NULL : fedcm_finish(run); }

static inline size_t fedcm_guarded_text(fedcm *run, size_t from, void *out, size_t room) {
    unsigned char spare[1] = {0};
    if (run == NULL || (out == NULL && room != 0)) {
        return 0;
    }
    return fedcm_text(run, from, out == NULL ? spare : (unsigned char *)out, room);
}

static inline void fedcm_guarded_close(fedcm *run) {
    if (run != NULL) {
        fedcm_close(run);
    }
}
#define fedcm_open(run) fedcm_guarded_open(run)
#define fedcm_feed(run, piece, piece_size) fedcm_guarded_feed(run, piece, piece_size)
#define fedcm_finish(run) fedcm_guarded_finish(run)
#define fedcm_text(run, from, out, room) fedcm_guarded_text(run, from, out, room)
#define fedcm_close(run) fedcm_guarded_close(run)

#ifdef __cplusplus
}
#endif
#endif
