/* Stands before the C library's heap, by LD_PRELOAD, and refuses requests for memory.

   REFUSE=N in the environment refuses the Nth request of a program, counted from 1 at its start, and REFUSE=N.. that one
   and all after it. At the first refusal a byte goes to the descriptor that REFUSED names.

   A program can say itself from when on its requests are counted. A request for WORD bytes and more, which is more than a
   process can have, is no request but a word:
     WORD + N                from now on the Nth request is refused
     WORD + ALL_AFTER + N    from now on the Nth request and all after it are refused
     WORD + END              from now on none is; granted if none was refused since the word before
     WORD + QUESTION         granted: this library is there */

typedef unsigned long size_t;

extern void *__libc_malloc(size_t size);
extern void *__libc_realloc(void *block, size_t size);
extern char *getenv(const char *name);
extern long write(int file, const void *bytes, size_t count);
extern int *__errno_location(void);

#define WORD (1UL << 61)
#define ALL_AFTER (1UL << 40)
#define END (2UL << 40)
#define QUESTION (3UL << 40)
#define NO_MEMORY 12

static long first;      /* the request that is refused; 0: none is */
static int all_after;   /* whether those after it are refused too */
static int told = -1;   /* the descriptor to which the first refusal is told */
static long requests;   /* how many came */
static int was_refused; /* whether one was refused */

static void refuse(long nth, int and_after) {
    __atomic_store_n(&first, 0, __ATOMIC_SEQ_CST);
    __atomic_store_n(&requests, 0, __ATOMIC_SEQ_CST);
    __atomic_store_n(&was_refused, 0, __ATOMIC_SEQ_CST);
    __atomic_store_n(&all_after, and_after, __ATOMIC_SEQ_CST);
    __atomic_store_n(&first, nth, __ATOMIC_SEQ_CST);
}

static long number(const char *text, const char **rest) {
    long value = 0;
    while (*text >= '0' && *text <= '9') value = value * 10 + (*text++ - '0');
    *rest = text;
    return value;
}

__attribute__((constructor)) static void begin(void) {
    const char *asked = getenv("REFUSE"), *descriptor = getenv("REFUSED"), *rest;
    if (descriptor) told = (int)number(descriptor, &rest);
    if (!asked) return;
    long nth = number(asked, &rest);
    refuse(nth, *rest == '.');
}

static int is_refused(void) {
    long nth = __atomic_load_n(&first, __ATOMIC_SEQ_CST);
    if (nth == 0) return 0;
    long now = __atomic_add_fetch(&requests, 1, __ATOMIC_SEQ_CST);
    if (now != nth && !(__atomic_load_n(&all_after, __ATOMIC_SEQ_CST) && now > nth)) return 0;
    if (now == nth && told >= 0) write(told, "!", 1);
    __atomic_store_n(&was_refused, 1, __ATOMIC_SEQ_CST);
    *__errno_location() = NO_MEMORY;
    return 1;
}

static void *refusal(void) {
    *__errno_location() = NO_MEMORY;
    return 0;
}

static void *answer(size_t word) {
    if (word == QUESTION) return __libc_malloc(1);
    if (word == END) {
        int met = __atomic_load_n(&was_refused, __ATOMIC_SEQ_CST);
        refuse(0, 0);
        return met ? refusal() : __libc_malloc(1);
    }
    if (word < END) refuse((long)(word & (ALL_AFTER - 1)), (word & ALL_AFTER) != 0);
    return refusal();
}

void *malloc(size_t size) {
    if (size >= WORD) return answer(size - WORD);
    return is_refused() ? 0 : __libc_malloc(size);
}

void *realloc(void *block, size_t size) {
    return is_refused() ? 0 : __libc_realloc(block, size);
}
