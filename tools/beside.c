/* Carries out the lines of a trace by jemalloc, for tools/beside, which builds and runs it: each arena of the trace is an arena of
 * jemalloc's own whose hooks only compute, so no memory lies behind a region and none is touched. Lines and answers are those of
 * docs/TRACE.md; calls in steps and addresses as PTR aren't. The moment is that of the trace. */
#define _GNU_SOURCE
#include <errno.h>
#include <jemalloc/jemalloc.h>
#include <stdbool.h>
#include <stddef.h>
#include <stdint.h>
#include <stdio.h>
#include <stdlib.h>
#include <string.h>
#include <time.h>

enum { CLIENTS = 32, ARENAS = 32, BOXES = 32, KINDS = 8 };
enum kind { ALLOC, DALLOC, COMMIT, DECOMMIT, PURGE_LAZY, PURGE_FORCED, SPLIT, MERGE };
static const char *const kind_words[KINDS] = {"alloc", "dalloc", "commit", "decommit", "purge_lazy", "purge_forced", "split", "merge"};

/* No page is added to a large region to shift its first byte. (MALLOC_CONF knows no such option in 5.3.0, so it is set before
 * jemalloc's first call, which takes the static library.) */
extern bool je_opt_cache_oblivious;
static void set_early(void) { je_opt_cache_oblivious = false; }
__attribute__((section(".preinit_array"), used)) static void (*const early)(void) = set_early;

static unsigned long long moment;
static int client; /* whose call is carried out */

/* jemalloc's clock. */
int clock_gettime(clockid_t clock, struct timespec *time) {
    (void)clock;
    time->tv_sec = (time_t)(1000 + moment / 1000000000);
    time->tv_nsec = (long)(moment % 1000000000);
    return 0;
}

static void fail(const char *why, const char *line) {
    fflush(stdout);
    fprintf(stderr, "%s%s%s\n", why, line ? ": " : "", line ? line : "");
    exit(1);
}

/* ---- boxes of hooks */

struct box {
    extent_hooks_t hooks;
    bool all[KINDS];
    unsigned long long left[KINDS]; /* asks till the one that is refused, that one too; 0 for none */
};

static struct box boxes[BOXES];
static uintptr_t next_free = (uintptr_t)1 << 41; /* (where the system places nothing) */

static bool refuses(extent_hooks_t *hooks, enum kind kind) {
    struct box *box = (struct box *)((char *)hooks - offsetof(struct box, hooks));
    bool refused = box->all[kind] || (box->left[kind] > 0 && --box->left[kind] == 0);
    printf("t%d ask %s %s\n", client, kind_words[kind], refused ? "refused" : "done");
    return refused;
}

static void *place(extent_hooks_t *hooks, void *at, size_t size, size_t alignment, bool *zero, bool *commit, unsigned arena) {
    (void)arena;
    if (refuses(hooks, ALLOC) || at != NULL)
        return NULL;
    uintptr_t first = (next_free + alignment - 1) / alignment * alignment;
    next_free = first + size;
    *zero = *commit = true;
    return (void *)first;
}

static bool dalloc(extent_hooks_t *hooks, void *at, size_t size, bool committed, unsigned arena) {
    (void)at, (void)size, (void)committed, (void)arena;
    return refuses(hooks, DALLOC);
}

static void destroy(extent_hooks_t *hooks, void *at, size_t size, bool committed, unsigned arena) {
    (void)hooks, (void)at, (void)size, (void)committed, (void)arena;
    printf("t%d ask destroy done\n", client);
}

#define OF_A_PART(name, kind) \
    static bool name(extent_hooks_t *hooks, void *at, size_t size, size_t offset, size_t length, unsigned arena) { \
        (void)at, (void)size, (void)offset, (void)length, (void)arena; \
        return refuses(hooks, kind); \
    }
OF_A_PART(commit, COMMIT)
OF_A_PART(decommit, DECOMMIT)
OF_A_PART(purge_lazy, PURGE_LAZY)
OF_A_PART(purge_forced, PURGE_FORCED)

static bool split(extent_hooks_t *hooks, void *at, size_t size, size_t left, size_t right, bool committed, unsigned arena) {
    (void)at, (void)size, (void)left, (void)right, (void)committed, (void)arena;
    return refuses(hooks, SPLIT);
}

static bool merge(extent_hooks_t *hooks, void *low, size_t low_size, void *high, size_t high_size, bool committed, unsigned arena) {
    (void)low, (void)low_size, (void)high, (void)high_size, (void)committed, (void)arena;
    return refuses(hooks, MERGE);
}

static void plan(int box, const char *kind, const char *ordinal) {
    for (int k = 0; k < KINDS; k++)
        if (strcmp(kind, kind_words[k]) == 0) {
            boxes[box].all[k] = strcmp(ordinal, "all") == 0;
            boxes[box].left[k] = strtoull(ordinal, NULL, 10);
        }
}

/* ---- tables from numbers to numbers, where 0 is no key */

struct table {
    uint64_t (*entries)[2];
    size_t places, used;
};

static uint64_t *entry(struct table *table, uint64_t key) {
    if (2 * (table->used + 1) > table->places) {
        struct table wider = {calloc(2 * table->places + 1024, sizeof *wider.entries), 2 * table->places + 1024, 0};
        for (size_t i = 0; i < table->places; i++)
            if (table->entries[i][0] != 0)
                *entry(&wider, table->entries[i][0]) = table->entries[i][1];
        free(table->entries);
        *table = wider;
    }
    size_t at = (size_t)(key * 0x9e3779b97f4a7c15u % table->places);
    while (table->entries[at][0] != 0 && table->entries[at][0] != key)
        at = (at + 1) % table->places;
    table->used += table->entries[at][0] == 0;
    table->entries[at][0] = key;
    return &table->entries[at][1];
}

static struct table names;   /* the sum of a name: its address */
static struct table regions; /* an address: the number of its arena plus 1, or 0 where nothing is alive there */

static uint64_t sum_of(const char *name) {
    uint64_t sum = 0xcbf29ce484222325u;
    for (; *name; name++)
        sum = (sum ^ (unsigned char)*name) * 0x100000001b3u;
    return sum | 1;
}

/* ---- arenas and clients */

static bool live[ARENAS];
static unsigned real[ARENAS]; /* jemalloc's index */
static unsigned bound[CLIENTS];
static unsigned caches[CLIENTS];
static bool cached[CLIENTS];

static int control(const char *form, unsigned index, void *old, size_t *old_size, void *new, size_t new_size) {
    char name[100];
    snprintf(name, sizeof name, form, index);
    return mallctl(name, old, old_size, new, new_size);
}

static bool is_live(unsigned long long arena) { return arena < ARENAS && live[arena]; }

/* Arenas are made with jemalloc's own hooks, so that their metadata has memory, and get the box's then. */
static int create(int box) {
    int arena = 0;
    while (arena < ARENAS && live[arena])
        arena++;
    if (arena == ARENAS)
        return -1;
    size_t size = sizeof(unsigned);
    extent_hooks_t *hooks = &boxes[box].hooks;
    if (mallctl("arenas.create", &real[arena], &size, NULL, 0) != 0 ||
        control("arena.%u.extent_hooks", real[arena], NULL, NULL, &hooks, sizeof hooks) != 0)
        fail("jemalloc makes no arena with hooks", NULL);
    live[arena] = true;
    return arena;
}

static void forget_regions(unsigned arena) {
    for (size_t i = 0; i < regions.places; i++)
        if (regions.entries[i][1] == arena + 1)
            regions.entries[i][1] = 0;
}

static int flags_now(void) {
    return MALLOCX_ARENA(real[bound[client]]) | (cached[client] ? MALLOCX_TCACHE(caches[client]) : MALLOCX_TCACHE_NONE);
}

/* ---- calls: each prints its answer */

static void take(const char *word, const char *name, unsigned long long alignment, unsigned long long size) {
    if (size > 1ull << 35 || (alignment & (alignment - 1)) != 0 || alignment == 0 || alignment > 1ull << 30) {
        printf("t%d %s %s %s\n", client, word, name, size > 1ull << 35 ? "too large" : "bad alignment");
        return;
    }
    int flags = flags_now() | (alignment > 1 ? MALLOCX_ALIGN(alignment) : 0);
    void *region = mallocx(size > 0 ? size : 1, flags);
    if (region == NULL) {
        printf("t%d %s %s refused\n", client, word, name);
        return;
    }
    *entry(&names, sum_of(name)) = (uintptr_t)region;
    *entry(&regions, (uintptr_t)region) = bound[client] + 1;
    printf("t%d %s %s @%lx %zu\n", client, word, name, (unsigned long)region, sallocx(region, flags));
}

static void give(const char *name) {
    uint64_t address = *entry(&names, sum_of(name));
    uint64_t *arena = address ? entry(&regions, address) : NULL;
    if (arena == NULL || *arena == 0) {
        printf("t%d free not held\n", client);
        return;
    }
    dallocx((void *)address, cached[client] ? MALLOCX_TCACHE(caches[client]) : MALLOCX_TCACHE_NONE);
    *arena = 0;
    printf("t%d free ok\n", client);
}

static void cache(bool on) {
    size_t size = sizeof(unsigned);
    int error = 0;
    if (on && !cached[client])
        error = mallctl("tcache.create", &caches[client], &size, NULL, 0);
    if (!on && cached[client])
        error = mallctl("tcache.destroy", NULL, NULL, &caches[client], size);
    if (error != 0)
        fail("jemalloc gives no cache", NULL);
    cached[client] = on;
    printf("t%d cache ok\n", client);
}

static void flush(void) {
    if (cached[client])
        mallctl("tcache.flush", NULL, NULL, &caches[client], sizeof(unsigned));
    printf("t%d flush ok\n", client);
}

/* A call of an arena: purge, decay, reset, destroy, dirty, muzzy or arena. */
static bool of_arena(const char *word, unsigned long long arena, long long time) {
    static const struct {
        const char *word, *form;
    } forms[] = {{"purge", "arena.%u.purge"}, {"decay", "arena.%u.decay"}, {"reset", "arena.%u.reset"}, {"destroy", "arena.%u.destroy"},
                 {"dirty", "arena.%u.dirty_decay_ms"}, {"muzzy", "arena.%u.muzzy_decay_ms"}, {"arena", NULL}};
    size_t n = 0;
    while (n < sizeof forms / sizeof *forms && strcmp(word, forms[n].word) != 0)
        n++;
    if (n == sizeof forms / sizeof *forms)
        return false;
    if (!is_live(arena)) {
        printf("t%d %s no arena %llu\n", client, word, arena);
        return true;
    }
    ssize_t milliseconds = (ssize_t)time;
    bool timed = strcmp(word, "dirty") == 0 || strcmp(word, "muzzy") == 0;
    int error = 0;
    if (forms[n].form == NULL)
        bound[client] = (unsigned)arena;
    else
        error = control(forms[n].form, real[arena], NULL, NULL, timed ? &milliseconds : NULL, timed ? sizeof milliseconds : 0);
    if (error == 0 && (strcmp(word, "reset") == 0 || strcmp(word, "destroy") == 0)) {
        forget_regions((unsigned)arena);
        live[arena] = strcmp(word, "reset") == 0;
    }
    printf("t%d %s %s\n", client, word, error ? strerror(error) : "ok");
    return true;
}

static size_t count(const char *form, unsigned arena) {
    size_t value = 0, size = sizeof value;
    control(form, real[arena], &value, &size, NULL, 0);
    return value;
}

static void refresh(void) {
    uint64_t epoch = 1;
    mallctl("epoch", NULL, NULL, &epoch, sizeof epoch);
}

static void print_counts(unsigned arena) {
    printf("arena %u active %zu dirty %zu muzzy %zu retained %zu\n", arena, 4096 * count("stats.arenas.%u.pactive", arena),
           4096 * count("stats.arenas.%u.pdirty", arena), 4096 * count("stats.arenas.%u.pmuzzy", arena),
           count("stats.arenas.%u.retained", arena));
}

static void counts_within(unsigned long long arena) {
    if (!is_live(arena)) {
        printf("no arena %llu\n", arena);
        return;
    }
    refresh();
    print_counts((unsigned)arena);
}

static void carry_out(char *line) {
    char word[20], first[300] = "", second[300] = "";
    unsigned long long a = 0, b = 0;
    int at = 0, box;
    if (sscanf(line, "at %llu", &moment) == 1)
        return;
    if (sscanf(line, "counts %llu", &a) == 1) {
        counts_within(a);
        return;
    }
    if (sscanf(line, "refuse %d %19s %299s", &box, first, second) == 3 && box >= 0 && box < BOXES) {
        plan(box, first, second);
        return;
    }
    if (sscanf(line, "t%d %19s %n", &client, word, &at) < 2 || client < 0 || client >= CLIENTS)
        fail("this line isn't compared", line);
    const char *rest = line + at;
    if (strcmp(word, "malloc") == 0 && sscanf(rest, "%299s %llu", first, &a) == 2)
        take(word, first, 1, a);
    else if (strcmp(word, "memalign") == 0 && sscanf(rest, "%299s %llu %llu", first, &a, &b) == 3)
        take(word, first, a, b);
    else if (strcmp(word, "free") == 0 && rest[0] != '@')
        give(rest);
    else if ((strcmp(word, "publish") == 0 || strcmp(word, "take") == 0) && rest[0] != '@')
        printf("t%d %s ok\n", client, word);
    else if (strcmp(word, "cache") == 0)
        cache(strcmp(rest, "on") == 0);
    else if (strcmp(word, "flush") == 0)
        flush();
    else if (strcmp(word, "create") == 0 && sscanf(rest, "%d", &box) == 1 && box >= 0 && box < BOXES) {
        int arena = create(box);
        printf(arena < 0 ? "t%d create arenas full\n" : "t%d create %d\n", client, arena);
    } else if (sscanf(rest, "%llu %lld", &a, (long long *)&b) < 1 || !of_arena(word, a, (long long)b))
        fail("this line isn't compared", line);
}

int main(void) {
    const char *version = "";
    size_t size = sizeof version, room = 0;
    char *line = NULL;
    if (mallctl("version", &version, &size, NULL, 0) != 0 || strncmp(version, "5.3", 3) != 0) {
        fprintf(stderr, "the jemalloc here is %s, and not 5.3\n", version);
        return 77;
    }
    for (int box = 0; box < BOXES; box++)
        boxes[box].hooks = (extent_hooks_t){place, dalloc, destroy, commit, decommit, purge_lazy, purge_forced, split, merge};
    create(0);
    for (ssize_t length; (length = getline(&line, &room, stdin)) > 0;) {
        line[length - 1] = line[length - 1] == '\n' ? 0 : line[length - 1];
        carry_out(line);
    }
    refresh();
    for (unsigned arena = 0; arena < ARENAS; arena++)
        if (live[arena])
            print_counts(arena);
    return 0;
}
