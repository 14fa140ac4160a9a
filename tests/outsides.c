/* Lets one call of a program fail: an allocation, a read of its standard input, a write to its standard output, or the making of a
 * thread. tests/outsides builds it as a library that LD_PRELOAD names.
 *
 * Counted, from 1 on, are the calls of malloc, calloc and realloc that the program's own code makes, in whichever thread, its
 * reads of descriptor 0, its writes to descriptor 1, and the threads that are to be made; not the calls of the C library. The
 * variables OUTSIDE_ALLOCATION, OUTSIDE_READ, OUTSIDE_WRITE and OUTSIDE_THREAD have the number of the call that fails, and
 * OUTSIDE_MOST how many bytes a read or a write moves at most. A call that fails is told by a byte to the descriptor in
 * OUTSIDE_TOLD, so that whoever starts the program knows that it came so far.
 */
#define _GNU_SOURCE
#include <dlfcn.h>
#include <errno.h>
#include <link.h>
#include <pthread.h>
#include <stddef.h>
#include <stdlib.h>
#include <sys/syscall.h>
#include <unistd.h>

void *__libc_malloc(size_t size);
void *__libc_calloc(size_t count, size_t size);
void *__libc_realloc(void *old, size_t size);

/* Calls of one kind: how many there were, and which one fails, 0 where none does. */
struct calls {
    unsigned long made, failing;
};

static struct calls allocations, reads, writes, threads;
static int (*make_thread)(pthread_t *, const pthread_attr_t *, void *(*)(void *), void *);
static size_t most = (size_t)-1;
static int told = -1;
static char *code, *code_end; /* where the program's own code lies */

/* (the first object that is told is the program) */
static int find_program(struct dl_phdr_info *object, size_t size, void *unused)
{
    (void)size, (void)unused;
    for (int i = 0; i < object->dlpi_phnum; i++) {
        const ElfW(Phdr) *part = &object->dlpi_phdr[i];
        if (part->p_type == PT_LOAD && (part->p_flags & PF_X)) {
            code = (char *)object->dlpi_addr + part->p_vaddr;
            code_end = code + part->p_memsz;
        }
    }
    return 1;
}

static unsigned long number(const char *name, unsigned long otherwise)
{
    const char *text = getenv(name);
    return text ? strtoul(text, NULL, 10) : otherwise;
}

__attribute__((constructor)) static void begin(void)
{
    dl_iterate_phdr(find_program, NULL);
    *(void **)&make_thread = dlsym(RTLD_NEXT, "pthread_create");
    most = number("OUTSIDE_MOST", most);
    told = (int)number("OUTSIDE_TOLD", (unsigned long)-1);
    reads.failing = number("OUTSIDE_READ", 0);
    writes.failing = number("OUTSIDE_WRITE", 0);
    threads.failing = number("OUTSIDE_THREAD", 0);
    allocations.failing = number("OUTSIDE_ALLOCATION", 0);
}

/* Counts a call, and tells whether it fails. (Several threads may be here at once, and each has a number of its own.) */
static int fails(struct calls *calls, int error)
{
    if (calls->failing == 0 || __atomic_add_fetch(&calls->made, 1, __ATOMIC_RELAXED) != calls->failing)
        return 0;
    if (syscall(SYS_write, told, "f", 1) != 1)
        _exit(99);
    errno = error;
    return 1;
}

/* Whether the memory that is asked for from this address isn't given. */
static int is_refused(void *caller)
{
    return (char *)caller >= code && (char *)caller < code_end && fails(&allocations, ENOMEM);
}

void *malloc(size_t size)
{
    return is_refused(__builtin_return_address(0)) ? NULL : __libc_malloc(size);
}

void *calloc(size_t count, size_t size)
{
    return is_refused(__builtin_return_address(0)) ? NULL : __libc_calloc(count, size);
}

void *realloc(void *old, size_t size)
{
    return is_refused(__builtin_return_address(0)) ? NULL : __libc_realloc(old, size);
}

ssize_t read(int from, void *into, size_t count)
{
    if (from == 0 && fails(&reads, EIO))
        return -1;
    return syscall(SYS_read, from, into, from == 0 && count > most ? most : count);
}

ssize_t write(int into, const void *from, size_t count)
{
    if (into == 1 && fails(&writes, EIO))
        return -1;
    return syscall(SYS_write, into, from, into == 1 && count > most ? most : count);
}

int pthread_create(pthread_t *thread, const pthread_attr_t *how, void *(*run)(void *), void *with)
{
    return fails(&threads, EAGAIN) ? EAGAIN : make_thread(thread, how, run, with);
}
