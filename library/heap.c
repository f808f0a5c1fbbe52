/* The heap of the WebAssembly module, in the place of the kit's few functions over malloc. Blocks are of size classes, four for each power
   of two; a freed block goes to the list of its class, and is never cut or joined. Memory is taken from __heap_base upwards. */
typedef __SIZE_TYPE__ size_t;
typedef struct { _Bool ok; unsigned char *p; } Tried;
typedef struct Head { size_t class; struct Head *next; } Head; /* 16 bytes, before each block */
extern unsigned char __heap_base;
#define CLASSES 160
#define MOST ((size_t)1 << 40)
static Head *lists[CLASSES];
static unsigned char *top;
static unsigned char nothing;

/* The class of a size, and the size of the class: 16, 32, 48, 64, and then four to each power of two. */
static size_t class_of(size_t n, size_t *size) {
    size_t units = (n + 15) >> 4;
    if (units < 4) {
        units = units != 0 ? units : 1;
        *size = units << 4;
        return units;
    }
    size_t bit = 63 - __builtin_clzll(units - 1 < 4 ? 4 : units - 1); /* the power below */
    size_t step = (size_t)1 << (bit - 2), up = (units + step - 1) & ~(step - 1);
    *size = up << 4;
    return (bit << 2) + (up >> (bit - 2)) - 4;
}

static size_t size_of_class(size_t class) {
    if (class < 4) return class << 4;
    return ((4 + (class & 3)) << ((class >> 2) - 2)) << 4;
}

/* Grows the memory up to this end, by a quarter more where it can. */
static _Bool reaches(size_t end) {
    size_t have = __builtin_wasm_memory_size(0) << 16;
    if (end <= have) return 1;
    size_t pages = (end - have + 65535) >> 16, more = have >> 18;
    return __builtin_wasm_memory_grow(0, pages > more ? pages : more) != (size_t)-1 ||
           __builtin_wasm_memory_grow(0, pages) != (size_t)-1;
}

static void *heap_alloc(size_t n) {
    size_t size;
    if (n > MOST) return 0;
    size_t class = class_of(n, &size);
    if (lists[class] != 0) {
        Head *head = lists[class];
        lists[class] = head->next;
        return head + 1;
    }
    if (top == 0) top = (unsigned char *)(((size_t)&__heap_base + 15) & ~(size_t)15);
    size_t end = (size_t)top + sizeof(Head) + size;
    if (!reaches(end)) return 0;
    Head *head = (Head *)top;
    top = (unsigned char *)end;
    head->class = class;
    return head + 1;
}

static void heap_free(void *p) {
    Head *head = (Head *)p - 1;
    head->next = lists[head->class];
    lists[head->class] = head;
}

Tried rattle_alloc(size_t n, size_t a) {
    void *p = heap_alloc(n != 0 ? n : a);
    return p != 0 ? (Tried){1, p} : (Tried){0, &nothing};
}

Tried rattle_realloc(unsigned char *p, size_t kept, size_t n, size_t a) {
    size_t want = n != 0 ? n : a, have = size_of_class(((Head *)p - 1)->class);
    if (want <= have && have <= 2 * want + 64) return (Tried){1, p};
    unsigned char *made = heap_alloc(want);
    if (made == 0) return (Tried){0, &nothing};
    __builtin_memcpy(made, p, kept < want ? kept : want);
    heap_free(p);
    return (Tried){1, made};
}

void rattle_dealloc(unsigned char *p) { heap_free(p); }

/* For the host: room for what it passes, and 0 where there is none. */
__attribute__((export_name("fedcm_room"))) unsigned char *fedcm_room(size_t n) { return heap_alloc(n); }
__attribute__((export_name("fedcm_free"))) void fedcm_free(unsigned char *p) { heap_free(p); }
