/* Refuses one allocation: that of the number that the environment names as REFUSE, counted from 1; or, if it names a
   file as REFUSE_ONCE, the next one of REFUSE_FROM up to REFUSE_BELOW bytes when that file is there. The refusal takes
   the file away. */
/* The kit's compiler has no headers, so what is used of the C library is declared here. */
typedef unsigned long size_t;
void *dlsym(void *, const char *);
long atol(const char *);
char *getenv(const char *);
long write(int, const void *, size_t);
int unlink(const char *);
#define NULL ((void *)0)
#define RTLD_NEXT ((void *)-1l)
static long left = -1;
static size_t from, below;
static const char *once;
static void *(*next_malloc)(size_t), *(*next_realloc)(void *, size_t);
static long number(const char *name) {
    const char *text = getenv(name);
    return text ? atol(text) : 0;
}
/* A program's other libraries may begin before this one, and allocate. */
static void find_next(void) {
    next_malloc = dlsym(RTLD_NEXT, "malloc");
    next_realloc = dlsym(RTLD_NEXT, "realloc");
}
__attribute__((constructor)) static void begin(void) {
    from = number("REFUSE_FROM");
    below = number("REFUSE_BELOW");
    once = getenv("REFUSE_ONCE");
    left = number("REFUSE");
}
/* Descriptor 9 tells whether the allocation was reached. */
static int refused(size_t n) {
    if (once && from <= n && n < below) return unlink(once) == 0;
    return left > 0 && --left == 0 && write(9, "r", 1) == 1;
}
void *malloc(size_t n) {
    if (!next_malloc) find_next();
    return refused(n) ? NULL : next_malloc(n);
}
void *realloc(void *p, size_t n) {
    if (!next_realloc) find_next();
    return refused(n) ? NULL : next_realloc(p, n);
}
