/* A preloaded allocator that refuses requests of the program that it is loaded into. A request is a call of malloc, calloc, realloc,
   aligned_alloc or posix_memalign; a realloc to 0 bytes isn't one, nor is what is asked for before main.

   REFUSE_AT=N    refuses the N-th request, 1 being the first.
   REFUSE_FOR=M   refuses M requests from there on (1 if left out).
   REFUSE_EACH=FILE  runs main for N = 1, 2, .. in a copy of the process each, until a run meets no refused request, and appends to
                  FILE what each run came to: the struct `outcome` and the bytes of standard output and of standard error. Standard
                  input must be a file; each run reads it from its beginning.
   REFUSE_FROM=N  begins there, with REFUSE_EACH. REFUSE_STEP=S refuses at every S-th request only.
   REFUSE_SECONDS=S  a run that takes more processor seconds is ended by the system (10 if left out), with REFUSE_EACH.

   cc -O2 -shared -fPIC -o refuse.so refuse.c */
#define _GNU_SOURCE
#include <dlfcn.h>
#include <errno.h>
#include <fcntl.h>
#include <stdint.h>
#include <stdio.h>
#include <stdlib.h>
#include <string.h>
#include <sys/mman.h>
#include <sys/resource.h>
#include <sys/wait.h>
#include <unistd.h>

struct outcome {
    uint64_t at, asked, refused, largest;
    int32_t status;
    uint32_t out_len, err_len;
    uint32_t padding;
};

/* What is counted stands in memory that the copies share with the process that starts them. */
static struct outcome own, *now = &own;
static uint64_t at, count = 1;
static int runs = 0;

/* What dlsym asks for before the real allocator is known is given from here, and never given back. */
static char early[4096] __attribute__((aligned(16)));
static size_t early_used;

static void *(*real_malloc)(size_t);
static void *(*real_calloc)(size_t, size_t);
static void *(*real_realloc)(void *, size_t);
static void *(*real_aligned)(size_t, size_t);
static int (*real_memalign)(void **, size_t, size_t);
static void (*real_free)(void *);

static int is_early(void *p) { return (char *)p >= early && (char *)p < early + sizeof early; }

static void *give_early(size_t n) {
    n = (n + 15) & ~(size_t)15;
    if (n > sizeof early - early_used) return NULL;
    early_used += n;
    return early + early_used - n;
}

static int refuses(size_t n) {
    if (!runs) return 0;
    now->asked++;
    if (n > now->largest) now->largest = n;
    if (!at || now->asked < at || now->asked - at >= count) return 0;
    now->refused++;
    errno = ENOMEM;
    return 1;
}

void *malloc(size_t n) {
    if (!real_malloc) return give_early(n);
    return refuses(n) ? NULL : real_malloc(n);
}

void *calloc(size_t n, size_t size) {
    if (!real_calloc) return give_early(n * size);
    return refuses(size && n > SIZE_MAX / size ? SIZE_MAX : n * size) ? NULL : real_calloc(n, size);
}

void *realloc(void *p, size_t n) {
    if (n && refuses(n)) return NULL;
    if (!is_early(p)) return real_realloc(p, n);
    void *fresh = real_malloc(n);
    if (fresh) memcpy(fresh, p, n);
    return fresh;
}

void *aligned_alloc(size_t align, size_t n) { return refuses(n) ? NULL : real_aligned(align, n); }

int posix_memalign(void **p, size_t align, size_t n) { return refuses(n) ? ENOMEM : real_memalign(p, align, n); }

void free(void *p) {
    if (real_free && !is_early(p)) real_free(p);
}

static uint64_t number(const char *name, uint64_t otherwise) {
    char *it = getenv(name);
    return it ? strtoull(it, NULL, 10) : otherwise;
}

static void fail(const char *what) {
    perror(what);
    _exit(125);
}

/* An unnamed file that takes what a run writes. */
static int scratch(void) {
    int file = memfd_create("refuse", 0);
    if (file < 0) fail("memfd_create");
    return file;
}

static void append(int to, int from, uint32_t length) {
    char part[4096];
    off_t place = 0;
    while (place < length) {
        ssize_t it = pread(from, part, sizeof part, place);
        if (it <= 0 || write(to, part, it) != it) fail("copy");
        place += it;
    }
}

/* One run of main: returns in the copy, and in the process that starts it when the copy has ended. */
static int is_copy(int out, int err, int seconds) {
    if (ftruncate(out, 0) || ftruncate(err, 0)) fail("ftruncate");
    lseek(out, 0, SEEK_SET);
    lseek(err, 0, SEEK_SET);
    lseek(0, 0, SEEK_SET);
    memset(now, 0, sizeof *now);
    pid_t copy = fork();
    if (copy < 0) fail("fork");
    if (copy == 0) {
        struct rlimit limit = {seconds, seconds}, none = {0, 0};
        setrlimit(RLIMIT_CPU, &limit);
        setrlimit(RLIMIT_CORE, &none);
        alarm(10 * seconds);
        dup2(out, 1);
        dup2(err, 2);
        runs = 1;
        return 1;
    }
    int status;
    if (waitpid(copy, &status, 0) != copy) fail("waitpid");
    now->at = at;
    now->status = status;
    now->out_len = lseek(out, 0, SEEK_END);
    now->err_len = lseek(err, 0, SEEK_END);
    return 0;
}

static void run_each(const char *file) {
    int to = open(file, O_WRONLY | O_CREAT | O_APPEND | O_CLOEXEC, 0644), out = scratch(), err = scratch();
    if (to < 0) fail(file);
    now = mmap(NULL, sizeof *now, PROT_READ | PROT_WRITE, MAP_SHARED | MAP_ANONYMOUS, -1, 0);
    if (now == MAP_FAILED) fail("mmap");
    uint64_t step = number("REFUSE_STEP", 1);
    int seconds = number("REFUSE_SECONDS", 10);
    for (at = number("REFUSE_FROM", 1);; at += step) {
        if (is_copy(out, err, seconds)) return;
        if (write(to, now, sizeof *now) != sizeof *now) fail(file);
        append(to, out, now->out_len);
        append(to, err, now->err_len);
        if (!now->refused) _exit(0);
    }
}

__attribute__((constructor)) static void begin(void) {
    real_free = dlsym(RTLD_NEXT, "free");
    real_calloc = dlsym(RTLD_NEXT, "calloc");
    real_realloc = dlsym(RTLD_NEXT, "realloc");
    real_aligned = dlsym(RTLD_NEXT, "aligned_alloc");
    real_memalign = dlsym(RTLD_NEXT, "posix_memalign");
    real_malloc = dlsym(RTLD_NEXT, "malloc");
    count = number("REFUSE_FOR", 1);
    char *file = getenv("REFUSE_EACH");
    if (file) run_each(file);
    else at = number("REFUSE_AT", 0);
    runs = 1;
}
