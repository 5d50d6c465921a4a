// Stands between a program and the C library (LD_PRELOAD), and refuses it one call. NO_MEMORY_AT,
// NO_READ_AT and NO_WRITE_AT tell which request for memory, which read and which write fails, counted
// from 1; PIECE tells how many bytes a read or a write takes at most. With FILES these are reads and
// writes of files, and syncs are writes; without it, reads of standard input and writes of standard
// output. NO_MEMORY_WHILE names a file: while it is there, no request of 64 kB or more is granted.
// REQUESTS names a file into which the three counts go at the end.
// It is compiled by the toolchain's own compiler, which has no headers: what it asks of the C library
// stands here, as Linux on x86-64 has it.
typedef unsigned long size_t;
typedef long ssize_t;
void *dlsym(void *where, const char *name);
int *__errno_location(void);
char *getenv(const char *name);
long atol(const char *text);
int access(const char *path, int how);
int open(const char *path, int how, ...);
int dprintf(int port, const char *text, ...);
#define RTLD_NEXT ((void *) -1)
#define errno (*__errno_location())
enum { F_OK = 0, EIO = 5, ENOMEM = 12, O_WRONLY = 1, O_CREAT = 0100, O_TRUNC = 01000 };

static long requests, reads, writes;

static long told(const char *name) {
    char *text = getenv(name);
    return text ? atol(text) : 0;
}

static int is_refused(size_t size) {
    char *file = getenv("NO_MEMORY_WHILE");
    if (file && size >= 65536 && access(file, F_OK) == 0) return 1;
    return ++requests == told("NO_MEMORY_AT");
}

static int is_counted(int port, int standard) { return getenv("FILES") ? port > 2 : port == standard; }

static size_t piece(size_t size) {
    long most = told("PIECE");
    return most && size > (size_t) most ? (size_t) most : size;
}

void *malloc(size_t size) {
    static void *(*real)(size_t);
    if (!real) real = dlsym(RTLD_NEXT, "malloc");
    return is_refused(size) ? 0 : real(size);
}

void *realloc(void *old, size_t size) {
    static void *(*real)(void *, size_t);
    if (!real) real = dlsym(RTLD_NEXT, "realloc");
    return is_refused(size) ? 0 : real(old, size);
}

void *aligned_alloc(size_t align, size_t size) {
    static void *(*real)(size_t, size_t);
    if (!real) real = dlsym(RTLD_NEXT, "aligned_alloc");
    return is_refused(size) ? 0 : real(align, size);
}

int posix_memalign(void **found, size_t align, size_t size) {
    static int (*real)(void **, size_t, size_t);
    if (!real) real = dlsym(RTLD_NEXT, "posix_memalign");
    return is_refused(size) ? ENOMEM : real(found, align, size);
}

ssize_t read(int port, void *bytes, size_t size) {
    static ssize_t (*real)(int, void *, size_t);
    if (!real) real = dlsym(RTLD_NEXT, "read");
    if (!is_counted(port, 0)) return real(port, bytes, size);
    if (++reads == told("NO_READ_AT")) { errno = EIO; return -1; }
    return real(port, bytes, piece(size));
}

ssize_t write(int port, const void *bytes, size_t size) {
    static ssize_t (*real)(int, const void *, size_t);
    if (!real) real = dlsym(RTLD_NEXT, "write");
    if (!is_counted(port, 1)) return real(port, bytes, size);
    if (++writes == told("NO_WRITE_AT")) { errno = EIO; return -1; }
    return real(port, bytes, piece(size));
}

static int synced(int port, const char *name) {
    int (*real)(int) = dlsym(RTLD_NEXT, name);
    if (getenv("FILES") && ++writes == told("NO_WRITE_AT")) { errno = EIO; return -1; }
    return real(port);
}

int fsync(int port) { return synced(port, "fsync"); }

int fdatasync(int port) { return synced(port, "fdatasync"); }

__attribute__((destructor)) static void tell(void) {
    long counts[3] = { requests, reads, writes };
    char *name = getenv("REQUESTS");
    int port = name ? open(name, O_WRONLY | O_CREAT | O_TRUNC, 0600) : -1;
    if (port >= 0) dprintf(port, "%ld %ld %ld\n", counts[0], counts[1], counts[2]);
}

// A program that may start threads ends by this call, which passes over what stands at the end otherwise.
void _exit(int status) {
    void (*real)(int) = dlsym(RTLD_NEXT, "_exit");
    tell();
    real(status);
    __builtin_unreachable();
}
