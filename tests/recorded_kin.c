/* Each function of malloc's kin once, and with -DJEMALLOC those of jemalloc(3); tests/recording compares the lines with those that
 * stand beside the calls. It checks that the memory is of the allocator that malloc_usable_size asks. */
#define _GNU_SOURCE
#include <malloc.h>
#include <stdio.h>
#include <stdlib.h>
#include <string.h>
#ifdef JEMALLOC
#include <jemalloc/jemalloc.h>
#endif

static int wrong;

static void *fill(void *address, size_t size) {
    if (malloc_usable_size(address) < size)
        wrong = 1;
    return memset(address, 7, size);
}

int main(void) {
    void *aligned = NULL;
    setvbuf(stdout, NULL, _IONBF, 0);
    free(fill(malloc(77001), 77001));                      /* malloc 77001; free */
    free(fill(calloc(7, 11001), 77007));                   /* malloc 77007; free */
    void *grown = fill(reallocarray(NULL, 7, 11002), 9);   /* malloc 77014 */
    grown = fill(reallocarray(grown, 7, 11003), 77021);    /* realloc 77021 */
    free(grown);                                           /* free */
    free(fill(aligned_alloc(64, 77056), 77056));           /* memalign 64 77056; free */
    free(fill(memalign(128, 77003), 77003));               /* memalign 128 77003; free */
    if (posix_memalign(&aligned, 256, 77004) == 0)         /* memalign 256 77004; free */
        free(fill(aligned, 77004));
    if (posix_memalign(&aligned, 24, 77004) == 0)
        wrong = 1;
    free(fill(valloc(77005), 77005));                      /* memalign 4096 77005; free */
#ifdef JEMALLOC
    void *x = fill(mallocx(77101, MALLOCX_ALIGN(512)), 77101); /* memalign 512 77101 */
    x = fill(rallocx(x, 77102, 0), 77102);                 /* realloc 77102 */
    dallocx(x, 0);                                         /* free */
    sdallocx(fill(mallocx(77103, 0), 77103), 77103, 0);    /* malloc 77103; free */
#else
    free(fill(pvalloc(77006), 77006));                     /* memalign 4096 77824; free */
#endif
    puts(wrong ? "another allocator's" : "its own");
    return wrong;
}
