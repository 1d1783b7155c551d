// Makes one allocation of a program fail: the one whose number, counted from 1, is in the environment's FAILING, of the thread
// whose number is in FAILING_THREAD: 0, which is the first one, where that is not set; the others are numbered from 1 in the
// order of their starts. Where FAILING is 0, none fails, and how many that thread made is told on standard error. Loaded by LD_PRELOAD.
#define _GNU_SOURCE
#include <dlfcn.h>
#include <errno.h>
#include <pthread.h>
#include <stdio.h>
#include <stdlib.h>
#include <sys/syscall.h>
#include <unistd.h>

extern void *__libc_malloc(size_t size);
extern void *__libc_realloc(void *old, size_t size);

// What a thread that is started does, and its number.
struct start {
    void *(*run)(void *);
    void *argument;
    unsigned long number;
};

#define THREADS 1024

static struct start starts[THREADS];
static unsigned long started;
static unsigned long failing;
static unsigned long chosen;
static unsigned long made;
static __thread unsigned long number __attribute__((tls_model("initial-exec")));
static __thread unsigned long calls __attribute__((tls_model("initial-exec")));

static unsigned long number_in(const char *name)
{
    const char *digits = getenv(name);
    return digits ? strtoul(digits, NULL, 10) : 0;
}

__attribute__((constructor)) static void begin(void)
{
    failing = number_in("FAILING");
    chosen = number_in("FAILING_THREAD");
    calls = 0;
}

__attribute__((destructor)) static void end(void)
{
    if (failing == 0)
        dprintf(2, "%lu\n", made);
}

// So a program ends that runs no destructors.
void _exit(int status)
{
    end();
    syscall(SYS_exit_group, status);
    __builtin_unreachable();
}

static void *run_numbered(void *given)
{
    struct start *start = given;
    number = start->number;
    return start->run(start->argument);
}

// Threads are numbered in the order in which they are started, which one thread does.
int pthread_create(pthread_t *thread, const pthread_attr_t *attributes, void *(*run)(void *), void *argument)
{
    int (*create)(pthread_t *, const pthread_attr_t *, void *(*)(void *), void *) = dlsym(RTLD_NEXT, "pthread_create");
    unsigned long next = __atomic_add_fetch(&started, 1, __ATOMIC_SEQ_CST);
    if (next >= THREADS)
        abort();
    starts[next] = (struct start){ run, argument, next };
    return create(thread, attributes, run_numbered, &starts[next]);
}

static int is_failing(void)
{
    if (number != chosen)
        return 0;
    made = ++calls;
    if (calls != failing)
        return 0;
    errno = ENOMEM;
    return 1;
}

void *malloc(size_t size)
{
    return is_failing() ? NULL : __libc_malloc(size);
}

void *realloc(void *old, size_t size)
{
    return is_failing() ? NULL : __libc_realloc(old, size);
}
