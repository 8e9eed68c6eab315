// Loaded in front of the C library, this refuses one call of the program: the one that the variable REFUSE gives by its kind and its
// number, as `read 3` for the third read. `memory-beside 1` is the first allocation of the program's first thread after it started one
// more. When that call comes, the file that REFUSED names is made. It stands on no header, so the compiler of the kit will do.

extern void *dlsym(void *, const char *);
extern char *getenv(const char *);
extern int strcmp(const char *, const char *);
extern int raise(int);
extern int getpid(void);
extern int gettid(void);
extern int *__errno_location(void);

typedef unsigned long size;
enum { ERROR_IO = 5, ERROR_AGAIN = 11, ERROR_MEMORY = 12, ERROR_SPACE = 28, STOP = 19, TO_WRITE = 01, TO_MAKE = 0100 };

// The same call of the C library.
#define TRUE_CALL(name) static __typeof__(name) *true_call; if (!true_call) true_call = dlsym((void *)-1, #name)

int open(const char *, int, ...);

static char kind[32];         // of the call that is refused
static long wanted, counted;  // its number, and how many of the kind came
static long started;          // how many threads were started

static void begin(void) {
    const char *text = getenv("REFUSE");
    for (int at = 0; *text && *text != ' '; text++) kind[at++] = *text;
    for (text++; *text; text++) wanted = 10 * wanted + *text - '0';
}

// Whether this call, if it is of the kind, is the wanted one, or comes after it where `later` says so.
static int is_refused(const char *name, int later) {
    if (!wanted) begin();
    if (strcmp(name, kind)) return 0;
    long number = __atomic_add_fetch(&counted, 1, __ATOMIC_SEQ_CST);
    if (number == wanted) open(getenv("REFUSED"), TO_WRITE | TO_MAKE, 0600);
    return number == wanted || (later && number > wanted);
}

static int fail(int error) {
    *__errno_location() = error;
    return -1;
}

// Whether this is the call of the kind memory-beside.
static int is_beside(void) {
    if (started < wanted || gettid() != getpid() || strcmp("memory-beside", kind) || counted) return 0;
    counted = 1;
    open(getenv("REFUSED"), TO_WRITE | TO_MAKE, 0600);
    return 1;
}

static int is_memory_refused(void) {
    return (is_refused("memory", 0) || is_refused("memory-on", 1) || is_beside()) && fail(ERROR_MEMORY);
}

void *malloc(size bytes) {
    TRUE_CALL(malloc);
    return is_memory_refused() ? 0 : true_call(bytes);
}

void *realloc(void *place, size bytes) {
    TRUE_CALL(realloc);
    return is_memory_refused() ? 0 : true_call(place, bytes);
}

int open(const char *name, int flags, ...) {
    TRUE_CALL(open);
    __builtin_va_list more;
    __builtin_va_start(more, flags);
    int mode = __builtin_va_arg(more, int);
    __builtin_va_end(more);
    return is_refused("open", 0) ? fail(ERROR_IO) : true_call(name, flags, mode);
}

long read(int file, void *to, size bytes) {
    TRUE_CALL(read);
    if (is_refused("stop", 0)) raise(STOP);
    if (is_refused("read", 0)) return fail(ERROR_IO);
    return true_call(file, to, is_refused("read-one", 0) && bytes ? 1 : bytes);
}

long write(int file, const void *from, size bytes) {
    TRUE_CALL(write);
    if (is_refused("write", 0)) return fail(ERROR_SPACE);
    return true_call(file, from, is_refused("write-one", 0) && bytes ? 1 : bytes);
}

int pthread_create(void *thread, const void *how, void *(*what)(void *), void *with) {
    TRUE_CALL(pthread_create);
    if (is_refused("thread", 0)) return ERROR_AGAIN;
    int failure = true_call(thread, how, what, with);
    started++;
    return failure;
}
