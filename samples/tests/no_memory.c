/* Refuses requests for memory: to be loaded before the C library (LD_PRELOAD), for no_memory.py.
 *
 * The file that NO_MEMORY names has five numbers of 64 bits: how many requests were made, and how many refused; which
 * one to refuse, from 1 on, 0 for none; 1 where all after that are refused too; and N where one in N is refused, 0 for
 * none. The other side reads and writes them while the program runs. */
#define _GNU_SOURCE
#include <errno.h>
#include <fcntl.h>
#include <stdint.h>
#include <stdlib.h>
#include <sys/mman.h>
#include <unistd.h>

struct orders {
    _Atomic uint64_t asked, refused, first, onward, every;
};

static struct orders none;
static struct orders *orders = &none;

/* What the C library itself takes memory by. */
void *__libc_malloc(size_t size);
void *__libc_calloc(size_t count, size_t size);
void *__libc_realloc(void *from, size_t size);

__attribute__((constructor)) static void read_orders(void) {
    const char *name = getenv("NO_MEMORY");
    int file = name ? open(name, O_RDWR | O_CLOEXEC) : -1;
    if (file < 0) return;
    void *place = mmap(NULL, sizeof *orders, PROT_READ | PROT_WRITE, MAP_SHARED, file, 0);
    if (place != MAP_FAILED) orders = place;
    close(file);
}

static int is_refused(void) {
    uint64_t number = ++orders->asked, first = orders->first, every = orders->every;
    /* Which of N are refused follows no pattern of the program's: numbers are spread by the golden ratio. */
    uint64_t spread = number * 0x9e3779b97f4a7c15u >> 32;
    if ((first && (number == first || (orders->onward && number > first))) || (every && spread % every == 0)) {
        ++orders->refused;
        errno = ENOMEM;
        return 1;
    }
    return 0;
}

void *malloc(size_t size) { return is_refused() ? NULL : __libc_malloc(size); }

void *calloc(size_t count, size_t size) { return is_refused() ? NULL : __libc_calloc(count, size); }

void *realloc(void *from, size_t size) { return is_refused() ? NULL : __libc_realloc(from, size); }
