/* Stands between a program and the system, loaded before the C library (LD_PRELOAD): fails chosen
   calls, shifts the clocks, and records calls.

   SHIM names a file of 4,096 octets, which this library maps and whoever drives the program writes:
   the milliseconds by which the wall clock is ahead (8 octets of the machine's order), the number of
   the orders (8 octets, written last), the milliseconds by which all clocks are ahead (8 octets), and
   the orders, a line each, with a zero after them:

       CALL FILE FIRST TIMES ERROR

   Of the calls of this name, on a file whose path ends with FILE (`*`: on any), counted from when the
   orders came, number FIRST and the TIMES - 1 after it fail with the system's error number ERROR.
   Where ERROR is -N, a write takes N octets; where it is N above 1,000, the call waits N
   milliseconds and goes on. A socket's path is a colon with its own port, or its path; that of the
   standard input is `input`, and that of the standard output `output`. Of `malloc`, FILE is the
   least number of octets.

   SHIM_RECORD names a file that gets a line for each call which SHIM_CALLS names (words, one blank
   apart), in the order of the calls: what was written stands there before the call and the answer
   after it, so that nothing is recorded as done before it was.

       open PATH FLAGS MODE        openat's numbers
       pwrite PATH PLACE HEX       write PATH HEX        send PATH FD HEX
       ftruncate PATH SIZE         fsync PATH            fdatasync PATH
       accept PATH FD              connect               clock CLOCK NANOSECONDS
       ring NUMBER                 a write to the eventfd that was made as the one of this number
       = CALL PATH ANSWER          of all but the last four; -N where it failed with the error N

   A pread and a read can be failed too, and aren't recorded.

   SHIM_REFUSED is a number: of the calls of malloc and realloc, counted from 1 when the program begins,
   that one is refused, and recorded as `refused SIZE`.
*/
#define _GNU_SOURCE
#include <errno.h>
#include <fcntl.h>
#include <pthread.h>
#include <stdarg.h>
#include <stdint.h>
#include <stdio.h>
#include <stdlib.h>
#include <string.h>
#include <sys/mman.h>
#include <sys/socket.h>
#include <sys/syscall.h>
#include <sys/un.h>
#include <netinet/in.h>
#include <time.h>
#include <unistd.h>

#define FILES 4096
#define ORDERS 64
#define PAGE 4096

struct page {
    volatile int64_t shift;
    volatile int64_t number;
    volatile int64_t ahead;
    char text[PAGE - 24];
};

struct order {
    char call[16], file[128];
    long first, times, error, seen;
};

static pthread_mutex_t lock = PTHREAD_MUTEX_INITIALIZER;
static struct page *page;
static int64_t number;
static struct order orders[ORDERS];
static int count;
static char paths[FILES][128];
/* The number of each eventfd, from 1, and how many were made. */
static int rings[FILES], rung;
static int record = -1;
static char recorded[256];
/* The call for memory that is refused, 0 if none, and how many there were. */
static long refused, asked;

__attribute__((constructor)) static void begin(void)
{
    const char *path = getenv("SHIM");
    if (path) {
        int file = syscall(SYS_openat, AT_FDCWD, path, O_RDWR | O_CLOEXEC, 0);
        void *found = file < 0 ? MAP_FAILED : mmap(0, PAGE, PROT_READ | PROT_WRITE, MAP_SHARED, file, 0);
        page = found == MAP_FAILED ? 0 : found;
        if (file >= 0)
            syscall(SYS_close, file);
    }
    if ((path = getenv("SHIM_RECORD")))
        record = syscall(SYS_openat, AT_FDCWD, path, O_WRONLY | O_CREAT | O_APPEND | O_CLOEXEC, 0600);
    const char *calls = getenv("SHIM_CALLS");
    snprintf(recorded, sizeof recorded, " %s ", calls ? calls : "");
    const char *call = getenv("SHIM_REFUSED");
    refused = call ? atol(call) : 0;
    strcpy(paths[0], "input");
    strcpy(paths[1], "output");
}

/* Reads the orders where they are new. */
static void read_orders(void)
{
    if (!page || page->number == number)
        return;
    number = page->number;
    count = 0;
    for (const char *line = page->text; *line && count < ORDERS;) {
        struct order *it = &orders[count];
        if (sscanf(line, "%15s %127s %ld %ld %ld", it->call, it->file, &it->first, &it->times, &it->error) == 5) {
            it->seen = 0;
            count++;
        }
        const char *end = strchr(line, '\n');
        if (!end)
            break;
        line = end + 1;
    }
}

static int is_of(const struct order *it, const char *call, const char *path, size_t size)
{
    if (strcmp(it->call, call))
        return 0;
    if (!strcmp(call, "malloc"))
        return size >= (size_t)atol(it->file);
    size_t all = strlen(path), end = strlen(it->file);
    return !strcmp(it->file, "*") || (all >= end && !strcmp(path + all - end, it->file));
}

/* What the orders say of this call: 0 where it goes on. */
static long ordered(const char *call, const char *path, size_t size)
{
    long error = 0;
    pthread_mutex_lock(&lock);
    read_orders();
    for (struct order *it = orders; it < orders + count; it++)
        if (is_of(it, call, path, size)) {
            it->seen++;
            if (!error && it->seen >= it->first && it->seen < it->first + it->times)
                error = it->error;
        }
    pthread_mutex_unlock(&lock);
    if (error <= 1000)
        return error;
    /* (not by the clocks that are shifted) */
    struct timespec time = {error / 1000, error % 1000 * 1000000};
    syscall(SYS_nanosleep, &time, 0);
    return 0;
}

static int is_recorded(const char *call)
{
    char word[24];
    snprintf(word, sizeof word, " %s ", call);
    return record >= 0 && strstr(recorded, word);
}

/* A line with these octets in hexadecimal digits at its end. */
static void note(const char *head, const unsigned char *octets, size_t size)
{
    static char line[1 << 16];
    int kept = errno;
    pthread_mutex_lock(&lock);
    size_t end = snprintf(line, sizeof line, "%s", head);
    for (size_t k = 0; k < size; k++) {
        line[end++] = "0123456789abcdef"[octets[k] >> 4];
        line[end++] = "0123456789abcdef"[octets[k] & 15];
        if (end > sizeof line - 4) {
            syscall(SYS_write, record, line, end);
            end = 0;
        }
    }
    line[end++] = '\n';
    syscall(SYS_write, record, line, end);
    pthread_mutex_unlock(&lock);
    errno = kept;
}

static void note_answer(const char *call, const char *path, long answer)
{
    char head[256];
    if (!is_recorded(call))
        return;
    snprintf(head, sizeof head, "= %s %s %ld", call, path, answer < 0 ? -(long)errno : answer);
    note(head, 0, 0);
}

static const char *path_of(int file)
{
    return file >= 0 && file < FILES ? paths[file] : "";
}

static void name(int file, const char *path)
{
    if (file >= 0 && file < FILES)
        snprintf(paths[file], sizeof paths[file], "%s", path);
}

/* Of a socket the port or the path that it has itself. */
static void name_socket(int file, char *path, size_t size)
{
    union {
        struct sockaddr any;
        struct sockaddr_in four;
        struct sockaddr_in6 six;
        struct sockaddr_un file;
    } it;
    socklen_t length = sizeof it;
    memset(&it, 0, sizeof it);
    *path = 0;
    if (syscall(SYS_getsockname, file, &it, &length))
        return;
    if (it.any.sa_family == AF_UNIX)
        snprintf(path, size, "%.100s", it.file.sun_path);
    else
        snprintf(path, size, ":%d", ntohs(it.any.sa_family == AF_INET ? it.four.sin_port : it.six.sin6_port));
}

/* A call that is to fail, or else whose answer is noted. */
static long ended(const char *call, const char *path, long answer)
{
    note_answer(call, path, answer);
    return answer;
}

static int fails(long error)
{
    if (error > 0)
        errno = error;
    return error > 0;
}

static size_t taken(long error, size_t size)
{
    return error < 0 && (size_t)-error < size ? (size_t)-error : size;
}

int open(const char *path, int flags, ...)
{
    va_list rest;
    char head[512];
    va_start(rest, flags);
    int mode = flags & (O_CREAT | O_TMPFILE) ? va_arg(rest, int) : 0;
    va_end(rest);
    if (is_recorded("open")) {
        snprintf(head, sizeof head, "open %.400s %d %d", path, flags, mode);
        note(head, 0, 0);
    }
    if (fails(ordered("open", path, 0)))
        return ended("open", path, -1);
    int file = syscall(SYS_openat, AT_FDCWD, path, flags, mode);
    name(file, path);
    return ended("open", path, file);
}

int close(int file)
{
    name(file, "");
    if (file >= 0 && file < FILES)
        rings[file] = 0;
    return syscall(SYS_close, file);
}

int accept4(int listener, struct sockaddr *address, socklen_t *length, int flags)
{
    char path[128], head[256];
    name_socket(listener, path, sizeof path);
    if (fails(ordered("accept", path, 0)))
        return -1;
    int file = syscall(SYS_accept4, listener, address, length, flags);
    name(file, path);
    if (file >= 0 && is_recorded("accept")) {
        snprintf(head, sizeof head, "accept %s %d", path, file);
        note(head, 0, 0);
    }
    return file;
}

int eventfd(unsigned int count, int flags)
{
    int file = syscall(SYS_eventfd2, count, flags);
    if (file >= 0 && file < FILES) {
        pthread_mutex_lock(&lock);
        rings[file] = ++rung;
        pthread_mutex_unlock(&lock);
    }
    return file;
}

int connect(int file, const struct sockaddr *address, socklen_t length)
{
    if (is_recorded("connect"))
        note("connect", 0, 0);
    return syscall(SYS_connect, file, address, length);
}

ssize_t send(int file, const void *octets, size_t size, int flags)
{
    char head[256], path[160];
    snprintf(path, sizeof path, "%s %d", path_of(file), file);
    if (is_recorded("send")) {
        snprintf(head, sizeof head, "send %s ", path);
        note(head, octets, size);
    }
    long error = ordered("send", path_of(file), 0);
    if (fails(error))
        return ended("send", path, -1);
    return ended("send", path, syscall(SYS_sendto, file, octets, taken(error, size), flags, 0, 0));
}

ssize_t write(int file, const void *octets, size_t size)
{
    const char *path = path_of(file);
    char head[256];
    if (file >= 0 && file < FILES && rings[file] && is_recorded("ring")) {
        snprintf(head, sizeof head, "ring %d", rings[file]);
        note(head, 0, 0);
    }
    if (!*path)
        return syscall(SYS_write, file, octets, size);
    if (is_recorded("write")) {
        snprintf(head, sizeof head, "write %s ", path);
        note(head, octets, size);
    }
    long error = ordered("write", path, 0);
    if (fails(error))
        return ended("write", path, -1);
    return ended("write", path, syscall(SYS_write, file, octets, taken(error, size)));
}

ssize_t pwrite(int file, const void *octets, size_t size, off_t place)
{
    const char *path = path_of(file);
    char head[256];
    if (is_recorded("pwrite")) {
        snprintf(head, sizeof head, "pwrite %s %ld ", path, (long)place);
        note(head, octets, size);
    }
    long error = ordered("pwrite", path, 0);
    if (fails(error))
        return ended("pwrite", path, -1);
    return ended("pwrite", path, syscall(SYS_pwrite64, file, octets, taken(error, size), place));
}

ssize_t read(int file, void *octets, size_t size)
{
    const char *path = path_of(file);
    if (*path && fails(ordered("read", path, 0)))
        return -1;
    return syscall(SYS_read, file, octets, size);
}

ssize_t pread(int file, void *octets, size_t size, off_t place)
{
    if (fails(ordered("pread", path_of(file), 0)))
        return -1;
    return syscall(SYS_pread64, file, octets, size, place);
}

int ftruncate(int file, off_t size)
{
    const char *path = path_of(file);
    char head[256];
    if (is_recorded("ftruncate")) {
        snprintf(head, sizeof head, "ftruncate %s %ld", path, (long)size);
        note(head, 0, 0);
    }
    if (fails(ordered("ftruncate", path, 0)))
        return ended("ftruncate", path, -1);
    return ended("ftruncate", path, syscall(SYS_ftruncate, file, size));
}

static int synced(const char *call, int file, long system)
{
    const char *path = path_of(file);
    char head[256];
    if (is_recorded(call)) {
        snprintf(head, sizeof head, "%s %s", call, path);
        note(head, 0, 0);
    }
    if (fails(ordered(call, path, 0)))
        return ended(call, path, -1);
    return ended(call, path, syscall(system, file));
}

int fsync(int file)
{
    return synced("fsync", file, SYS_fsync);
}

int fdatasync(int file)
{
    return synced("fdatasync", file, SYS_fdatasync);
}

int clock_gettime(clockid_t clock, struct timespec *at)
{
    char head[64];
    int status = syscall(SYS_clock_gettime, clock, at);
    if (!status && page) {
        int64_t millis = page->ahead + (clock == CLOCK_REALTIME ? page->shift : 0);
        int64_t nanos = at->tv_nsec + millis % 1000 * 1000000;
        at->tv_sec += millis / 1000 + (nanos >= 1000000000) - (nanos < 0);
        at->tv_nsec = (nanos + 1000000000) % 1000000000;
    }
    if (!status && is_recorded("clock")) {
        snprintf(head, sizeof head, "clock %d %lld", clock, at->tv_sec * 1000000000ll + at->tv_nsec);
        note(head, 0, 0);
    }
    return status;
}

int getentropy(void *octets, size_t size)
{
    if (fails(ordered("getentropy", "", 0)))
        return -1;
    return syscall(SYS_getrandom, octets, size, 0) == (long)size ? 0 : -1;
}

static int is_refused(size_t size)
{
    char head[64];
    if (!refused || __atomic_add_fetch(&asked, 1, __ATOMIC_RELAXED) != refused)
        return 0;
    snprintf(head, sizeof head, "refused %zu", size);
    note(head, 0, 0);
    errno = ENOMEM;
    return 1;
}

void *malloc(size_t size)
{
    extern void *__libc_malloc(size_t);
    if (is_refused(size) || (size > 4096 && page && fails(ordered("malloc", "", size))))
        return 0;
    return __libc_malloc(size);
}

void *realloc(void *old, size_t size)
{
    extern void *__libc_realloc(void *, size_t);
    return is_refused(size) ? 0 : __libc_realloc(old, size);
}
