/* Calls of the C library that move less, or fail, as words of the environment say: MOST bytes a `read` or `write`; `read` and `write`, which
 * of these calls fails with the errno ERROR; and REFUSED, which request for memory is refused. checks/program loads it before the library. */
#include <errno.h>
#include <stdlib.h>
#include <sys/syscall.h>
#include <unistd.h>

static size_t number(const char *word) { return getenv(word) ? strtoul(getenv(word), NULL, 10) : 0; }

#define MOVES(call, pointer) \
    ssize_t call(int file, pointer bytes, size_t count) { \
        static size_t calls; \
        size_t most = number("MOST"); \
        if (++calls == number(#call)) return errno = (int)number("ERROR"), -1; \
        return syscall(SYS_##call, file, bytes, most && most < count ? most : count); \
    }
MOVES(read, void *)
MOVES(write, const void *)

static int is_refused(void) { static size_t requests; return ++requests == number("REFUSED"); }
void *__libc_malloc(size_t), *__libc_calloc(size_t, size_t), *__libc_realloc(void *, size_t);
void *malloc(size_t size) { return is_refused() ? NULL : __libc_malloc(size); }
void *calloc(size_t count, size_t size) { return is_refused() ? NULL : __libc_calloc(count, size); }
void *realloc(void *old, size_t size) { return is_refused() ? NULL : __libc_realloc(old, size); }
