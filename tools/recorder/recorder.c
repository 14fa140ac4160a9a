/* Records the calls of the program into which it is preloaded as lines of a trace: those of malloc and its kin, of C++'s operators
 * new and delete, and of the *allocx functions of jemalloc(3). tools/record builds and preloads it, and makes the trace of what it
 * leaves.
 *
 * Each call is handed on to the next definition (the C library's, or that of an allocator that the program is linked with or that
 * is preloaded behind it), so the program keeps the allocator that it has. Only the outermost call is recorded: an operator new
 * that calls malloc is one line. Lines go straight into a file that is mapped, so they are there however the program ends. */
#define _GNU_SOURCE
#include <dlfcn.h>
#include <errno.h>
#include <fcntl.h>
#include <pthread.h>
#include <sched.h>
#include <spawn.h>
#include <stdarg.h>
#include <stdbool.h>
#include <stdint.h>
#include <stdio.h>
#include <stdlib.h>
#include <string.h>
#include <sys/mman.h>
#include <time.h>
#include <unistd.h>

#define THREAD_OWN static __thread __attribute__((tls_model("initial-exec")))

enum {
    CLIENTS = 32,
    LINE_BYTES = 80, /* at most */
    LINES = 1048576 - 64, /* of the lines that a trace may have some are comments and the making of arenas */
    CALL_LINES = 48, /* at most: a client's first lines, a moment, a decay of each arena, and the call */
    FILE_STEP = 4 << 20, /* by which the file of lines grows */
    EARLY_BYTES = 1 << 16,
};

/* What tools/record reads once the program has ended: numbers of eight bytes, then texts. */
struct tally {
    uint64_t started;   /* 1 where the recorder had room for all that it needs */
    uint64_t bytes;     /* of the lines */
    uint64_t lines;
    uint64_t clients;
    uint64_t alive;     /* regions that were not freed */
    uint64_t unknown;   /* frees of addresses that were never seen */
    uint64_t unlisted;  /* calls behind the last line */
    uint64_t forks;
    uint64_t programs;  /* that were started by it or by its forks */
    uint64_t replaced;  /* 1 where a program took its place */
    uint64_t full;      /* 1 where there was no more room for the lines */
    uint64_t spare;
    char command[256];  /* its words, each ended by a zero */
    char program[256];  /* the first one that was started, or the one that took its place */
};

/* A region that is alive, by its address; 0 is a free place. Names are numbers from 0 on, and none is used twice: a malloc that is
 * refused as the trace is replayed leaves its name with what it stood for. */
struct region {
    uintptr_t address;
    uint32_t name;
    int client; /* which took it */
};

static struct tally *tally;
static char *lines;
static char lines_path[4096];
static uint64_t lines_room;    /* bytes of the file */
static struct region *regions; /* a table with a power of two of places, at most half of them used */
static size_t places;
static uint32_t next_name;
static bool *records;          /* alone on its page, which a child of a fork finds empty: it records nothing */
static int lock;
static int kept;               /* errno of the thread that holds the lock */
static pid_t recorded;         /* the process */

static uint64_t moment_step, decay_step; /* nanoseconds; 0 for none */
static uint64_t first_moment, last_moment, decays;
static uint64_t arenas = 1;
static bool caches;
static pthread_key_t at_end;

THREAD_OWN int client = -1;
THREAD_OWN char *outermost; /* the frame of the call that is recorded, while it goes on */

/* ---- the next definitions */

static char early[EARLY_BYTES] __attribute__((aligned(16))); /* for calls that come while these are looked up */
static size_t early_used;
THREAD_OWN int looking;

static bool is_early(const void *address) { return (const char *)address >= early && (const char *)address < early + EARLY_BYTES; }

/* Sixteen bytes before each hold its size. */
static void *take_early(size_t size) {
    size_t whole = ((size + 15) & ~(size_t)15) + 16;
    size_t at = size > EARLY_BYTES ? EARLY_BYTES : __atomic_fetch_add(&early_used, whole, __ATOMIC_RELAXED);
    if (at + whole > EARLY_BYTES) {
        errno = ENOMEM;
        return NULL;
    }
    *(size_t *)(early + at) = size;
    return early + at + 16;
}

static size_t early_size(const void *address) { return *(const size_t *)((const char *)address - 16); }

/* C++'s operators may stand in a library that came later, with an extension, where the search for the next one doesn't look. */
static void *look_up(const char *name) {
    static const char *const later[] = {"libstdc++.so.6", "libc++abi.so.1", "libc++.so.1"};
    int error = errno;
    looking++;
    void *found = dlsym(RTLD_NEXT, name);
    for (size_t i = 0; found == NULL && name[0] == '_' && i < sizeof later / sizeof *later; i++) {
        void *library = dlopen(later[i], RTLD_LAZY | RTLD_NOLOAD);
        if (library != NULL) {
            found = dlsym(library, name);
            dlclose(library);
        }
    }
    looking--;
    errno = error;
    return found;
}

/* The next definition of a function, which is looked up once. */
#define NEXT(name) \
    ({ \
        static __typeof__(&name) found_##name; \
        if (found_##name == NULL) \
            found_##name = (__typeof__(&name))look_up(#name); \
        found_##name; \
    })

/* ---- the lock */

static bool is_recorded(void) { return records != NULL && *records; }

/* False, and nothing is held, where nothing is recorded. A child of a fork may find the lock held by a thread that it hasn't. */
static bool acquire(void) {
    int error = errno;
    while (is_recorded()) {
        if (!__atomic_exchange_n(&lock, 1, __ATOMIC_ACQUIRE)) {
            kept = error;
            return true;
        }
        sched_yield();
    }
    return false;
}

static void release(void) {
    errno = kept;
    __atomic_store_n(&lock, 0, __ATOMIC_RELEASE);
}

/* Whether this call is the outermost one of its thread. A call that was left by an exception or a longjmp isn't under way any more:
 * its frame would be below this one. */
__attribute__((always_inline)) static inline bool enters(void) {
    char *frame = __builtin_frame_address(0);
    if (looking > 0 || (outermost != NULL && frame < outermost))
        return false;
    outermost = frame;
    return true;
}

static void leave(bool entered) {
    if (entered)
        outermost = NULL;
}

static void *pages(size_t bytes) {
    void *start = mmap(NULL, bytes, PROT_READ | PROT_WRITE, MAP_PRIVATE | MAP_ANONYMOUS, -1, 0);
    return start == MAP_FAILED ? NULL : start;
}

/* ---- the table of regions */

/* (the low bits of the product are those of the address: alike where regions are aligned alike) */
static size_t home(uintptr_t address) { return (size_t)((address * 0x9e3779b97f4a7c15u) >> 32) & (places - 1); }

static struct region *place_of(uintptr_t address) {
    size_t at = home(address);
    while (regions[at].address != 0 && regions[at].address != address)
        at = (at + 1) & (places - 1);
    return &regions[at];
}

static bool grow_table(void) {
    struct region *old = regions;
    size_t count = places;
    struct region *wider = pages(2 * count * sizeof *wider);
    if (wider == NULL)
        return false;
    regions = wider;
    places = 2 * count;
    for (size_t i = 0; i < count; i++)
        if (old[i].address != 0)
            *place_of(old[i].address) = old[i];
    munmap(old, count * sizeof *old);
    return true;
}

/* Takes a place out of the table, and moves those behind it that it kept from their homes. */
static void clear_place(struct region *gone) {
    size_t hole = (size_t)(gone - regions), at = hole;
    for (;;) {
        at = (at + 1) & (places - 1);
        if (regions[at].address == 0)
            break;
        size_t from = home(regions[at].address);
        if (((at - from) & (places - 1)) >= ((at - hole) & (places - 1))) {
            regions[hole] = regions[at];
            hole = at;
        }
    }
    regions[hole].address = 0;
}

/* ---- lines */

static char *put_text(char *at, const char *text) {
    while (*text)
        *at++ = *text++;
    return at;
}

static char *put_number(char *at, uint64_t number) {
    char digits[20];
    int count = 0;
    do
        digits[count++] = (char)('0' + number % 10);
    while ((number /= 10) > 0);
    while (count > 0)
        *at++ = digits[--count];
    return at;
}

static char *begin_line(const char *call) {
    char *at = put_text(lines + tally->bytes, "t");
    return put_text(put_number(at, (uint64_t)client), call);
}

static void end_line(char *at) {
    *at++ = '\n';
    tally->bytes = (uint64_t)(at - lines);
    tally->lines++;
}

/* Gives the file of lines room for one more call. It gets its room at once: a page without would be a SIGBUS in the program. It is
 * opened anew each time, since a program may close files that it doesn't know. */
static bool has_room(void) {
    if (tally->bytes + CALL_LINES * LINE_BYTES <= lines_room)
        return true;
    if (tally->full)
        return false;
    int file = open(lines_path, O_RDWR | O_CLOEXEC);
    tally->full = file < 0 || posix_fallocate(file, (off_t)lines_room, FILE_STEP) != 0;
    if (file >= 0)
        close(file);
    lines_room += tally->full ? 0 : FILE_STEP;
    return !tally->full;
}

static void put_moment(void) {
    struct timespec now;
    clock_gettime(CLOCK_MONOTONIC, &now);
    uint64_t moment = (uint64_t)now.tv_sec * 1000000000u + (uint64_t)now.tv_nsec - first_moment;
    if (moment_step == 0 || moment - last_moment < moment_step)
        return;
    last_moment = moment;
    end_line(put_number(put_text(lines + tally->bytes, "at "), moment));
    if (decay_step == 0 || moment / decay_step == decays)
        return;
    decays = moment / decay_step;
    for (uint64_t arena = 0; arena < arenas; arena++)
        end_line(put_number(begin_line(" decay "), arena));
}

/* A client's own first lines. */
static void begin_client(void) {
    uint64_t arena = (uint64_t)client % arenas;
    if (arena > 0)
        end_line(put_number(begin_line(" arena "), arena));
    if (caches)
        end_line(begin_line(" cache on"));
}

/* The lock is held, and this thread has its client. False where the call is left out. */
static bool begins(void) {
    if (tally->lines + CALL_LINES > LINES || !has_room()) {
        tally->unlisted++;
        return false;
    }
    if (client < 0) {
        bool first = tally->clients < CLIENTS;
        client = first ? (int)tally->clients : CLIENTS - 1;
        tally->clients += first;
        if (first)
            begin_client();
        if (caches)
            pthread_setspecific(at_end, &at_end);
    }
    put_moment();
    return true;
}

/* A thread that ends flushes its cache. */
static void end_thread(void *value) {
    (void)value;
    bool entered = enters();
    if (entered && acquire()) {
        if (client >= 0 && begins())
            end_line(begin_line(" flush"));
        release();
    }
    leave(entered);
}

/* ---- what is noted of a call */

/* The lock is held. */
static void write_free(bool known, uint32_t name) {
    if (!known) {
        tally->unknown++;
        return;
    }
    end_line(put_number(begin_line(" free m"), name));
    tally->alive--;
}

static void write_malloc(uint32_t name, size_t alignment, size_t size) {
    char *at = put_number(begin_line(alignment > 0 ? " memalign m" : " malloc m"), name);
    if (alignment > 0)
        at = put_number(put_text(at, " "), alignment);
    end_line(put_number(put_text(at, " "), size));
    tally->alive++;
}

static void *got(bool entered, void *address, size_t alignment, size_t size) {
    if (entered && address != NULL && acquire()) {
        if (begins() && (2 * (tally->alive + 1) <= places || grow_table())) {
            struct region *region = place_of((uintptr_t)address);
            /* (an address that comes again was freed in a way that isn't seen) */
            if (region->address != 0)
                write_free(true, region->name);
            region->address = (uintptr_t)address;
            region->name = next_name++;
            region->client = client;
            write_malloc(region->name, alignment, size);
        }
        release();
    }
    leave(entered);
    return address;
}

/* glibc takes the next power of two for an alignment that is none. */
static void *got_aligned(bool entered, void *address, size_t alignment, size_t size) {
    size_t power = 1;
    while (power < alignment && power << 1 != 0)
        power <<= 1;
    return got(entered, address, power, size);
}

/* Takes a region out of the table; the lock is held. False where it isn't there. */
static bool forgets(void *address, uint32_t *name, int *taker) {
    struct region *region = place_of((uintptr_t)address);
    if (region->address == 0)
        return false;
    *name = region->name;
    *taker = region->client;
    clear_place(region);
    return true;
}

/* Before the free itself: another thread may get the address then. */
static void gone(bool entered, void *address) {
    uint32_t name = 0;
    int taker = 0;
    if (!entered || address == NULL || !acquire())
        return;
    if (begins()) {
        bool known = forgets(address, &name, &taker);
        write_free(known, name);
    }
    release();
}

/* A region whose realloc is under way. */
struct parted {
    bool known;
    uint32_t name;
    int client;
};

/* Takes the region out of the table before another thread may get its address. */
static struct parted part(bool entered, void *address) {
    struct parted parted = {false, 0, 0};
    if (!entered || !acquire())
        return parted;
    parted.known = tally->lines + CALL_LINES <= LINES && forgets(address, &parted.name, &parted.client);
    release();
    return parted;
}

/* Puts a region back into the table whose address did not change hands. */
static void stays(bool entered, void *address, struct parted parted) {
    if (entered && parted.known && acquire()) {
        struct region *region = place_of((uintptr_t)address);
        region->address = (uintptr_t)address;
        region->name = parted.name;
        region->client = parted.client;
        release();
    }
    leave(entered);
}

/* The free of what was parted, once the realloc has succeeded. */
static void has_parted(bool entered, struct parted parted) {
    if (!entered || !acquire())
        return;
    if (begins())
        write_free(parted.known, parted.name);
    release();
}

/* ---- malloc and its kin */

void *malloc(size_t size) {
    if (looking > 0)
        return take_early(size);
    bool entered = enters();
    return got(entered, NEXT(malloc)(size), 0, size);
}

void *calloc(size_t count, size_t size) {
    size_t bytes;
    /* (what is taken early is zero, and is never given back) */
    if (looking > 0)
        return __builtin_mul_overflow(count, size, &bytes) ? NULL : take_early(bytes);
    bool entered = enters();
    return got(entered, NEXT(calloc)(count, size), 0, count * size);
}

void free(void *address) {
    if (is_early(address))
        return;
    bool entered = enters();
    gone(entered, address);
    NEXT(free)(address);
    leave(entered);
}

void cfree(void *address) { free(address); }
void free_sized(void *address, size_t size) { (void)size; free(address); }
void free_aligned_sized(void *address, size_t alignment, size_t size) { (void)alignment; (void)size; free(address); }

/* A region of this client that has another size, and maybe another address, keeps its name. */
static void *resized(bool entered, void *address, struct parted parted, size_t size) {
    if (acquire()) {
        if (begins()) {
            struct region *region = place_of((uintptr_t)address);
            if (region->address != 0)
                write_free(true, region->name);
            region->address = (uintptr_t)address;
            region->name = parted.name;
            region->client = client;
            end_line(put_number(put_text(put_number(begin_line(" realloc m"), parted.name), " "), size));
        }
        release();
    }
    leave(entered);
    return address;
}

/* A realloc where this client took the region, and else a malloc and a free, in this order. */
static void *moved(bool entered, void *old, void *address, struct parted parted, size_t size) {
    if (address == NULL && size > 0) {
        stays(entered, old, parted);
        return NULL;
    }
    if (address != NULL && parted.known && parted.client == client)
        return resized(entered, address, parted, size);
    got(entered, address, 0, size);
    has_parted(entered, parted);
    return address;
}

void *realloc(void *old, size_t size) {
    if (old == NULL || is_early(old)) {
        void *address = malloc(size);
        if (old != NULL && address != NULL)
            memcpy(address, old, early_size(old) < size ? early_size(old) : size);
        return address;
    }
    bool entered = enters();
    struct parted parted = part(entered, old);
    return moved(entered, old, NEXT(realloc)(old, size), parted, size);
}

void *reallocarray(void *old, size_t count, size_t size) {
    size_t bytes;
    if (__builtin_mul_overflow(count, size, &bytes)) {
        errno = ENOMEM;
        return NULL;
    }
    return realloc(old, bytes);
}

void *memalign(size_t alignment, size_t size) {
    bool entered = enters();
    return got_aligned(entered, NEXT(memalign)(alignment, size), alignment, size);
}

void *aligned_alloc(size_t alignment, size_t size) {
    bool entered = enters();
    return got_aligned(entered, NEXT(aligned_alloc)(alignment, size), alignment, size);
}

int posix_memalign(void **result, size_t alignment, size_t size) {
    bool entered = enters();
    int error = NEXT(posix_memalign)(result, alignment, size);
    got(entered, error == 0 ? *result : NULL, alignment, size);
    return error;
}

void *valloc(size_t size) {
    bool entered = enters();
    return got(entered, NEXT(valloc)(size), (size_t)sysconf(_SC_PAGESIZE), size);
}

/* Whole pages. */
void *pvalloc(size_t size) {
    size_t page = (size_t)sysconf(_SC_PAGESIZE);
    bool entered = enters();
    return got(entered, NEXT(pvalloc)(size), page, (size + page - 1) / page * page);
}

size_t malloc_usable_size(void *address) { return is_early(address) ? early_size(address) : NEXT(malloc_usable_size)(address); }

/* ---- jemalloc's own: the low six bits of the flags are the exponent of the alignment. Where the program has no jemalloc, malloc
 * and its kin serve. */

enum { ALIGNMENT_BITS = 63, ZERO = 64 };

static size_t alignment_of(int flags) { return flags & ALIGNMENT_BITS ? (size_t)1 << (flags & ALIGNMENT_BITS) : 0; }

void *mallocx(size_t size, int flags) {
    size_t alignment = alignment_of(flags);
    bool entered = enters();
    if (NEXT(mallocx) != NULL)
        return got(entered, NEXT(mallocx)(size, flags), alignment, size);
    void *address = alignment > 0 ? NEXT(memalign)(alignment, size) : NEXT(malloc)(size);
    if (address != NULL && flags & ZERO)
        memset(address, 0, size);
    return got(entered, address, alignment, size);
}

void *rallocx(void *old, size_t size, int flags) {
    if (NEXT(rallocx) == NULL)
        return realloc(old, size);
    bool entered = enters();
    struct parted parted = part(entered, old);
    void *address = NEXT(rallocx)(old, size, flags);
    if (address == NULL) {
        stays(entered, old, parted);
        return NULL;
    }
    if (alignment_of(flags) == 0)
        return moved(entered, old, address, parted, size);
    got(entered, address, alignment_of(flags), size);
    has_parted(entered, parted);
    return address;
}

void dallocx(void *address, int flags) {
    if (NEXT(dallocx) == NULL) {
        free(address);
        return;
    }
    bool entered = enters();
    gone(entered, address);
    NEXT(dallocx)(address, flags);
    leave(entered);
}

void sdallocx(void *address, size_t size, int flags) {
    if (NEXT(sdallocx) == NULL) {
        free(address);
        return;
    }
    bool entered = enters();
    gone(entered, address);
    NEXT(sdallocx)(address, size, flags);
    leave(entered);
}

/* ---- C++'s operators, by their mangled names: nw is new and dl delete, na and da those of arrays */

static void *or_abort(void *address) {
    if (address == NULL)
        abort();
    return address;
}

#define NEW(name, alignment, parameters, arguments, otherwise) \
    void *name parameters; \
    void *name parameters { \
        bool entered = enters(); \
        void *address = NEXT(name) != NULL ? NEXT(name) arguments : (otherwise); \
        return got(entered, address, alignment, size); \
    }

#define DELETE(name, parameters, arguments) \
    void name parameters; \
    void name parameters { \
        bool entered = enters(); \
        gone(entered, address); \
        if (NEXT(name) != NULL) \
            NEXT(name) arguments; \
        else \
            NEXT(free)(address); \
        leave(entered); \
    }

#define NEWS(stem) \
    NEW(stem##m, 0, (size_t size), (size), or_abort(NEXT(malloc)(size))) \
    NEW(stem##mRKSt9nothrow_t, 0, (size_t size, const void *tag), (size, tag), NEXT(malloc)(size)) \
    NEW(stem##mSt11align_val_t, alignment, (size_t size, size_t alignment), (size, alignment), \
        or_abort(NEXT(memalign)(alignment, size))) \
    NEW(stem##mSt11align_val_tRKSt9nothrow_t, alignment, (size_t size, size_t alignment, const void *tag), (size, alignment, tag), \
        NEXT(memalign)(alignment, size))

#define DELETES(stem) \
    DELETE(stem##Pv, (void *address), (address)) \
    DELETE(stem##Pvm, (void *address, size_t size), (address, size)) \
    DELETE(stem##PvRKSt9nothrow_t, (void *address, const void *tag), (address, tag)) \
    DELETE(stem##PvSt11align_val_t, (void *address, size_t alignment), (address, alignment)) \
    DELETE(stem##PvmSt11align_val_t, (void *address, size_t size, size_t alignment), (address, size, alignment)) \
    DELETE(stem##PvSt11align_val_tRKSt9nothrow_t, (void *address, size_t alignment, const void *tag), (address, alignment, tag))

NEWS(_Znw)
NEWS(_Zna)
DELETES(_Zdl)
DELETES(_Zda)

/* ---- programs that it starts, which are counted, and the first of them named */

/* What was noted of a start, to be taken back where that fails. */
struct start {
    bool noted, first, replaces;
};

static struct start note_start(const char *program, bool in_place) {
    struct start start = {tally != NULL && tally->started && program != NULL, false, false};
    if (!start.noted)
        return start;
    start.replaces = in_place && getpid() == recorded;
    start.first = __atomic_fetch_add(&tally->programs, 1, __ATOMIC_RELAXED) == 0;
    if (start.first || start.replaces)
        strncpy(tally->program, program, sizeof tally->program - 1);
    if (start.replaces)
        tally->replaced = 1;
    return start;
}

static int take_back(struct start start, int status) {
    if (start.noted)
        __atomic_fetch_sub(&tally->programs, 1, __ATOMIC_RELAXED);
    if (start.replaces)
        tally->replaced = 0;
    return status;
}

/* (a child of a vfork isn't to look anything up) */
static __typeof__(&execve) next_execve;
static __typeof__(&execvpe) next_execvpe;

static void look_up_starts(void) {
    next_execve = NEXT(execve);
    next_execvpe = NEXT(execvpe);
}

int execve(const char *path, char *const words[], char *const environment[]) {
    struct start start = note_start(path, true);
    return take_back(start, (next_execve != NULL ? next_execve : NEXT(execve))(path, words, environment));
}

int execv(const char *path, char *const words[]) { return execve(path, words, environ); }

int execvpe(const char *file, char *const words[], char *const environment[]) {
    struct start start = note_start(file, true);
    return take_back(start, (next_execvpe != NULL ? next_execvpe : NEXT(execvpe))(file, words, environment));
}

int execvp(const char *file, char *const words[]) { return execvpe(file, words, environ); }

int fexecve(int file, char *const words[], char *const environment[]) {
    struct start start = note_start(words[0], true);
    return take_back(start, NEXT(fexecve)(file, words, environment));
}

/* How many words there are, without the null pointer behind them. */
static size_t count_words(va_list words) {
    size_t count = 1;
    while (va_arg(words, char *) != NULL)
        count++;
    return count;
}

#define EXEC_LIST(name, other, environment) \
    int name(const char *path, const char *first, ...) { \
        va_list words; \
        va_start(words, first); \
        size_t count = count_words(words); \
        va_end(words); \
        char *all[count + 1]; \
        va_start(words, first); \
        all[0] = (char *)first; \
        for (size_t i = 1; i <= count; i++) \
            all[i] = va_arg(words, char *); \
        char *const *others = environment; \
        va_end(words); \
        return other(path, all, others); \
    }

EXEC_LIST(execl, execve, environ)
EXEC_LIST(execlp, execvpe, environ)
EXEC_LIST(execle, execve, va_arg(words, char *const *))

int posix_spawn(pid_t *child, const char *path, const posix_spawn_file_actions_t *actions, const posix_spawnattr_t *attributes,
                char *const words[], char *const environment[]) {
    struct start start = note_start(path, false);
    int error = NEXT(posix_spawn)(child, path, actions, attributes, words, environment);
    return error == 0 ? 0 : take_back(start, error);
}

int posix_spawnp(pid_t *child, const char *file, const posix_spawn_file_actions_t *actions, const posix_spawnattr_t *attributes,
                 char *const words[], char *const environment[]) {
    struct start start = note_start(file, false);
    int error = NEXT(posix_spawnp)(child, file, actions, attributes, words, environment);
    return error == 0 ? 0 : take_back(start, error);
}

int system(const char *command) {
    note_start(command != NULL ? "sh" : NULL, false);
    return NEXT(system)(command);
}

FILE *popen(const char *command, const char *mode) {
    note_start("sh", false);
    return NEXT(popen)(command, mode);
}

/* ---- beginning and forks */

/* The lock isn't held over a fork: handlers of others may call malloc there. */
static void after_fork(void) {
    if (is_recorded())
        __atomic_add_fetch(&tally->forks, 1, __ATOMIC_RELAXED);
}

/* A new file with room for so many bytes, of which more may be mapped. */
static void *mapped(const char *path, size_t room, size_t bytes) {
    int file = open(path, O_RDWR | O_CREAT | O_EXCL | O_CLOEXEC, 0600);
    if (file < 0)
        return NULL;
    void *start = MAP_FAILED;
    if (posix_fallocate(file, 0, (off_t)room) == 0)
        start = mmap(NULL, bytes, PROT_READ | PROT_WRITE, MAP_SHARED, file, 0);
    close(file);
    return start == MAP_FAILED ? NULL : start;
}

/* The files of this process: N.tally and N.lines in the folder, of the least number that isn't taken. */
static bool make_files(const char *folder) {
    char path[sizeof lines_path + 32];
    for (int number = 1; tally == NULL; number++) {
        snprintf(path, sizeof path, "%s/%d.tally", folder, number);
        tally = mapped(path, sizeof *tally, sizeof *tally);
        snprintf(lines_path, sizeof lines_path, "%s/%d.lines", folder, number);
        if (tally == NULL && errno != EEXIST)
            return false;
    }
    lines = mapped(lines_path, FILE_STEP, (size_t)(LINES + CALL_LINES) * LINE_BYTES);
    lines_room = FILE_STEP;
    return lines != NULL;
}

static uint64_t option(const char *name, uint64_t otherwise) {
    const char *value = getenv(name);
    return value != NULL ? strtoull(value, NULL, 10) : otherwise;
}

static void take_options(void) {
    moment_step = option("JARENA_RECORD_MOMENTS", 0) * 1000000;
    decay_step = option("JARENA_RECORD_DECAY", 0) * 1000000;
    arenas = option("JARENA_RECORD_ARENAS", 1);
    caches = option("JARENA_RECORD_CACHES", 0) > 0;
}

/* The program and its children see the environment that tools/record was given, unless its children are recorded as well. */
static void restore_environment(void) {
    static const char *const names[] = {"PRELOAD", "FOLDER", "CHILDREN", "MOMENTS", "DECAY", "ARENAS", "CACHES"};
    const char *preload = getenv("JARENA_RECORD_PRELOAD");
    if (option("JARENA_RECORD_CHILDREN", 0) > 0)
        return;
    if (preload != NULL && *preload)
        setenv("LD_PRELOAD", preload, 1);
    else
        unsetenv("LD_PRELOAD");
    for (size_t i = 0; i < sizeof names / sizeof *names; i++) {
        char name[64];
        snprintf(name, sizeof name, "JARENA_RECORD_%s", names[i]);
        unsetenv(name);
    }
}

static void note_command(void) {
    int file = open("/proc/self/cmdline", O_RDONLY | O_CLOEXEC);
    if (file < 0)
        return;
    if (read(file, tally->command, sizeof tally->command - 1) < 0)
        tally->command[0] = 0;
    close(file);
}

__attribute__((constructor)) static void start(void) {
    const char *folder = getenv("JARENA_RECORD_FOLDER");
    if (folder == NULL)
        return;
    look_up_starts();
    take_options();
    bool made = make_files(folder);
    restore_environment();
    if (!made)
        return;
    places = 1 << 12;
    regions = pages(places * sizeof *regions);
    size_t page = (size_t)sysconf(_SC_PAGESIZE);
    bool *flag = pages(page);
    if (regions == NULL || flag == NULL || madvise(flag, page, MADV_WIPEONFORK) != 0 || pthread_atfork(NULL, after_fork, NULL) != 0 ||
        pthread_key_create(&at_end, end_thread) != 0)
        return;
    note_command();
    struct timespec now;
    clock_gettime(CLOCK_MONOTONIC, &now);
    first_moment = (uint64_t)now.tv_sec * 1000000000u + (uint64_t)now.tv_nsec;
    recorded = getpid();
    tally->started = 1;
    *flag = true;
    records = flag;
}
