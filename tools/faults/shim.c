/* Makes the system fail: a library to be preloaded, which makes one call of a program fail, or each past a limit.
 *
 * The environment says what fails. It names a call by its number, from 1 on, counted from the start of the program.
 * What failed once does not fail again. If the environment says nothing of a call, it is the system's own.
 *
 *   SHIM_ALLOC=N         allocation N is refused
 *   SHIM_ROOM=BYTES      an allocation is refused if all before it and this one have more bytes
 *   SHIM_THREAD=N        thread N is not started
 *   SHIM_READ=N          read N of standard input fails
 *   SHIM_WRITE=N         write N to standard output fails
 *   SHIM_EMPTY_WRITE=N   write N to standard output takes nothing
 *   SHIM_MOST=BYTES      standard input gives, and standard output takes, so many bytes a call at most
 *   SHIM_ENDLESS=1       standard input gives a line end a read, for ever
 *   SHIM_MARK=FILE       the file is made once a call was made to fail
 *   SHIM_LEFT=FILE       with SHIM_THREAD, the file is made if a thread still runs when the program ends
 *
 * tools/faults/refuse-growth uses SHIM_ALLOC, on tests. tools/faults/refuse-threads uses SHIM_THREAD and SHIM_LEFT, on tests of
 * races. tools/faults/failing-system uses the others, and SHIM_ALLOC, on the built program. Each compiles this file with
 *
 *   gcc -O2 -Wall -Wextra -Werror -shared -fPIC -o shim.so tools/faults/shim.c -ldl
 */
#define _GNU_SOURCE
#include <dlfcn.h>
#include <errno.h>
#include <fcntl.h>
#include <pthread.h>
#include <stddef.h>
#include <stdint.h>
#include <stdlib.h>
#include <unistd.h>

void *__libc_malloc(size_t);
void *__libc_calloc(size_t, size_t);
void *__libc_realloc(void *, size_t);
void *__libc_memalign(size_t, size_t);
void __libc_free(void *);
ssize_t __read(int, void *, size_t);
ssize_t __write(int, const void *, size_t);

typedef int create_call(pthread_t *, const pthread_attr_t *, void *(*)(void *), void *);

static long fail_alloc, room, fail_thread, fail_read, fail_write, empty_write, most, endless;
static long allocs, taken, threads, running, reads, writes;

static long limit(const char *name) {
    const char *text = getenv(name);
    return text != NULL ? atol(text) : 0;
}

/* Makes the file that the environment names. */
static void mark(const char *name) {
    const char *path = getenv(name);
    int file = path != NULL ? open(path, O_CREAT | O_WRONLY, 0600) : -1;
    if (file >= 0) {
        close(file);
    }
}

__attribute__((constructor)) static void start(void) {
    fail_thread = limit("SHIM_THREAD");
    fail_read = limit("SHIM_READ");
    fail_write = limit("SHIM_WRITE");
    empty_write = limit("SHIM_EMPTY_WRITE");
    most = limit("SHIM_MOST");
    endless = limit("SHIM_ENDLESS");
    fail_alloc = limit("SHIM_ALLOC");
    room = limit("SHIM_ROOM");
}

__attribute__((destructor)) static void end(void) {
    if (__atomic_load_n(&running, __ATOMIC_SEQ_CST) != 0) {
        mark("SHIM_LEFT");
    }
}

/* Counts a call of the number that is to fail, if one is: whether it is this one. */
static int is_next(long *count, long number) {
    return number != 0 && __atomic_add_fetch(count, 1, __ATOMIC_SEQ_CST) == number;
}

/* Allocations. */

static int is_past_room(size_t size) {
    if (room == 0) {
        return 0;
    }
    long before = __atomic_load_n(&taken, __ATOMIC_SEQ_CST);
    if (before > room || size > (size_t)(room - before)) {
        return 1;
    }
    __atomic_add_fetch(&taken, (long)size, __ATOMIC_SEQ_CST);
    return 0;
}

static int refuses(size_t size) {
    if (!is_next(&allocs, fail_alloc) && !is_past_room(size)) {
        return 0;
    }
    mark("SHIM_MARK");
    errno = ENOMEM;
    return 1;
}

void *malloc(size_t size) {
    return refuses(size) ? NULL : __libc_malloc(size);
}

void *calloc(size_t count, size_t size) {
    size_t all = 0;
    if (__builtin_mul_overflow(count, size, &all)) {
        all = SIZE_MAX;
    }
    return refuses(all) ? NULL : __libc_calloc(count, size);
}

void *realloc(void *block, size_t size) {
    return refuses(size) ? NULL : __libc_realloc(block, size);
}

void *aligned_alloc(size_t align, size_t size) {
    return refuses(size) ? NULL : __libc_memalign(align, size);
}

int posix_memalign(void **block, size_t align, size_t size) {
    void *made = refuses(size) ? NULL : __libc_memalign(align, size);
    if (made == NULL) {
        return ENOMEM;
    }
    *block = made;
    return 0;
}

/* Threads. */

struct work {
    void *(*run)(void *);
    void *argument;
};

static void *run(void *given) {
    struct work work = *(struct work *)given;
    __libc_free(given);
    void *result = work.run(work.argument);
    __atomic_sub_fetch(&running, 1, __ATOMIC_SEQ_CST);
    return result;
}

/* Starts a thread that is counted while it runs. Its record is none of the program's allocations. */
static int counted(create_call *real, pthread_t *thread, const pthread_attr_t *attr, struct work work) {
    struct work *given = __libc_malloc(sizeof *given);
    if (given == NULL) {
        return EAGAIN;
    }
    *given = work;
    __atomic_add_fetch(&running, 1, __ATOMIC_SEQ_CST);
    int status = real(thread, attr, run, given);
    if (status != 0) {
        __atomic_sub_fetch(&running, 1, __ATOMIC_SEQ_CST);
        __libc_free(given);
    }
    return status;
}

int pthread_create(pthread_t *thread, const pthread_attr_t *attr, void *(*start)(void *), void *argument) {
    create_call *real = (create_call *)dlsym(RTLD_NEXT, "pthread_create");
    if (fail_thread == 0) {
        return real(thread, attr, start, argument);
    }
    if (is_next(&threads, fail_thread)) {
        mark("SHIM_MARK");
        return EAGAIN;
    }
    return counted(real, thread, attr, (struct work){start, argument});
}

/* Standard input and standard output. */

static size_t at_most(size_t size) {
    return most != 0 && size > (size_t)most ? (size_t)most : size;
}

ssize_t read(int file, void *block, size_t size) {
    if (file != STDIN_FILENO) {
        return __read(file, block, size);
    }
    if (is_next(&reads, fail_read)) {
        mark("SHIM_MARK");
        errno = EIO;
        return -1;
    }
    if (endless != 0 && size > 0) {
        *(char *)block = '\n';
        return 1;
    }
    return __read(file, block, at_most(size));
}

ssize_t write(int file, const void *block, size_t size) {
    if (file != STDOUT_FILENO) {
        return __write(file, block, size);
    }
    if (fail_write != 0 || empty_write != 0) {
        long now = __atomic_add_fetch(&writes, 1, __ATOMIC_SEQ_CST);
        if (now == fail_write || now == empty_write) {
            mark("SHIM_MARK");
            errno = ENOSPC;
            return now == fail_write ? -1 : 0;
        }
    }
    return __write(file, block, at_most(size));
}
