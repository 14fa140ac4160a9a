/* Three threads that begin together and make known calls, and each of them a fork in between; tests/recording compares their
 * trace with tests/recorded.calls. With the word `many` instead: more regions alive at once than the recorder has places for at
 * first, of which every other one is freed then. With `lots`: more lines than its file has room for at first. With `slow`: a call
 * each 20 ms, in two threads. */
#define _GNU_SOURCE
#include <malloc.h>
#include <pthread.h>
#include <signal.h>
#include <stdlib.h>
#include <sys/syscall.h>
#include <sys/wait.h>
#include <unistd.h>

enum { THREADS = 3, MANY = 5000, LOTS = 400000 };

static pthread_barrier_t begins, ends;
static void *kept[MANY];

/* A handler that takes memory, and stands before those of any library: at a fork it runs behind theirs. */
static void at_fork(void) { free(malloc(999)); }
static void register_early(void) { pthread_atfork(at_fork, NULL, at_fork); }
__attribute__((section(".preinit_array"), used)) static void (*const early)(void) = register_early;

/* What a child does isn't the program's. */
static void forks(void) {
    pid_t child = fork();
    if (child == 0) {
        void *taken = realloc(malloc(12345), 12345);
        if (fork() == 0)
            _exit(0);
        free(taken);
        _exit(0);
    }
    waitpid(child, NULL, 0);
}

/* A child of which no fork handler hears. (There is one thread then: no other holds a lock of the C library.) */
static void clones(void) {
    pid_t child = (pid_t)syscall(SYS_clone, SIGCHLD, 0, 0, 0, 0);
    if (child == 0) {
        free(malloc(12345));
        _exit(0);
    }
    waitpid(child, NULL, 0);
}

static void *calls(void *argument) {
    size_t n = (size_t)argument;
    void *aligned;
    pthread_barrier_wait(&begins);
    void *first = malloc(100 + n);
    void *second = calloc(10, 100 + n);
    first = realloc(first, 5000 + n);
    if (posix_memalign(&aligned, 4096, 20000 + n) != 0)
        return NULL;
    free(second);
    void *third = aligned_alloc(64, 640);
    forks();
    void *fourth = memalign(128, 70000 + n);
    void *fifth = memalign(48, 300 + n);
    free(first);
    free(NULL);
    free(third);
    free(fourth);
    fifth = realloc(fifth, 0);
    void *last = realloc(fifth, 7 + n);
    free(aligned);
    pthread_barrier_wait(&ends);
    return last;
}

static int many(void) {
    for (int i = 0; i < MANY; i++)
        kept[i] = malloc(24);
    for (int i = 0; i < MANY; i += 2)
        free(kept[i]);
    return 0;
}

static int lots(void) {
    for (int i = 0; i < LOTS; i++)
        free(malloc(24));
    return 0;
}

static void *slow(void *argument) {
    for (int i = 0; i < 5; i++) {
        free(malloc(3000));
        usleep(20000);
    }
    return argument;
}

static int slow_twice(void) {
    pthread_t thread;
    pthread_create(&thread, NULL, slow, NULL);
    slow(NULL);
    pthread_join(thread, NULL);
    return 0;
}

int main(int count, char **words) {
    if (count > 1)
        return words[1][0] == 'm' ? many() : words[1][0] == 'l' ? lots() : slow_twice();
    pthread_t threads[THREADS];
    pthread_barrier_init(&begins, NULL, THREADS);
    pthread_barrier_init(&ends, NULL, THREADS);
    for (size_t i = 0; i < THREADS; i++)
        pthread_create(&threads[i], NULL, calls, (void *)i);
    for (size_t i = 0; i < THREADS; i++)
        pthread_join(threads[i], NULL);
    clones();
    return 0;
}
