/* Loaded before the C library: the allocation whose number REFUSED_ALLOCATION names fails, and all others succeed. Where
   COUNTED_ALLOCATIONS names a file, it has their number in the end. Where REFUSAL_CONTROL names a file of two numbers of 8 bytes,
   whoever else has it open says what is refused while the program runs: the first counts down with each allocation, and the one
   that makes it 0 fails; while the second isn't 0, all fail. */
#include <fcntl.h>
#include <stddef.h>
#include <stdio.h>
#include <stdlib.h>
#include <sys/mman.h>
#include <sys/syscall.h>
#include <unistd.h>

extern void *__libc_malloc(size_t size);
extern void *__libc_realloc(void *block, size_t size);

static long calls;
static volatile long *control;

__attribute__((constructor)) static void open_control(void)
{
    const char *path = getenv("REFUSAL_CONTROL");
    int file = path != NULL ? open(path, O_RDWR) : -1;
    if (file >= 0) {
        void *shared = mmap(NULL, 2 * sizeof(long), PROT_READ | PROT_WRITE, MAP_SHARED, file, 0);
        control = shared != MAP_FAILED ? shared : NULL;
        close(file);
    }
}

static int is_told_to_refuse(void)
{
    long left = control[0];
    while (left > 0 && !__atomic_compare_exchange_n(&control[0], &left, left - 1, 0, __ATOMIC_SEQ_CST, __ATOMIC_SEQ_CST))
        ;
    return left == 1 || control[1] != 0;
}

static int is_refused(void)
{
    const char *number = getenv("REFUSED_ALLOCATION");
    long call = __atomic_add_fetch(&calls, 1, __ATOMIC_SEQ_CST);
    return (number != NULL && atol(number) == call) || (control != NULL && is_told_to_refuse());
}

void *malloc(size_t size)
{
    return is_refused() ? NULL : __libc_malloc(size);
}

void *realloc(void *block, size_t size)
{
    return is_refused() ? NULL : __libc_realloc(block, size);
}

__attribute__((destructor)) static void tell(void)
{
    const char *path = getenv("COUNTED_ALLOCATIONS");
    long counted = calls;
    FILE *file = path != NULL && path[0] != '\0' ? fopen(path, "w") : NULL;
    if (file != NULL) {
        fprintf(file, "%ld\n", counted);
        fclose(file);
    }
}

/* A program that has threads ends by this call, with no destructor. */
void _exit(int status)
{
    tell();
    syscall(SYS_exit_group, status);
    __builtin_unreachable();
}
