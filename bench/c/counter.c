/* SPDX-License-Identifier: MIT */
/* A library that is loaded before a program (LD_PRELOAD). At the end of the program it prints how
   often memory was requested, in total and between two readings of a thread's clock.
   `bench/run allocations` makes it. */
extern void *__libc_malloc(unsigned long);
extern void *__libc_realloc(void *, unsigned long);
extern int dprintf(int, const char *, ...);
extern long syscall(long, ...);
extern _Noreturn void _Exit(int);

enum { THREAD_TIME = 3, CLOCK_GETTIME = 228 };

static unsigned long all, timed;
static int is_timed;

static void count(void)
{
    __atomic_fetch_add(&all, 1, __ATOMIC_SEQ_CST);
    if (is_timed)
        __atomic_fetch_add(&timed, 1, __ATOMIC_SEQ_CST);
}

void *malloc(unsigned long size)
{
    count();
    return __libc_malloc(size);
}

void *realloc(void *block, unsigned long size)
{
    count();
    return __libc_realloc(block, size);
}

int clock_gettime(int clock, void *time)
{
    if (clock == THREAD_TIME)
        is_timed = !is_timed;
    return (int)syscall(CLOCK_GETTIME, clock, time);
}

__attribute__((destructor)) static void tell(void)
{
    dprintf(2, "%lu %lu\n", all, timed);
}

/* A program with threads ends with this call, and nothing else then reports the end. */
void _exit(int status)
{
    tell();
    _Exit(status);
}
