/* Lets one thing fail in a program that is started with this library in LD_PRELOAD:
   REFUSED=n  the nth call of malloc or realloc; where the program ends with fewer, the file that UNMET names is made
   LARGEST=n  each call of malloc or realloc for more than n bytes
   TAKEN=n    the standard output takes n bytes, and then each write of it fails, or with BY=none takes no byte
   GIVEN=n    all reads together give n bytes, and then each read fails
   ONCE=1     with TAKEN or GIVEN: one write or read fails, and all later ones work
   BY=signal  a write or read that fails says that a signal came
   COUNTED=F  how many calls of malloc and realloc there were goes to the file F
   ASKED=F    for how many bytes these calls asked together goes to the file F */
#define _GNU_SOURCE
#include <dlfcn.h>
#include <errno.h>
#include <fcntl.h>
#include <stddef.h>
#include <stdlib.h>
#include <string.h>
#include <unistd.h>

static long refused = -1, largest = -1, taken = -1, given = -1, counted, asked;
static int is_ready, is_once, takes_none, is_signal;
static void *(*real_malloc)(size_t);
static void *(*real_realloc)(void *, size_t);
static ssize_t (*real_read)(int, void *, size_t);
static ssize_t (*real_write)(int, const void *, size_t);

static long number(const char *name)
{
    const char *text = getenv(name);
    return text ? atol(text) : -1;
}

static int is_by(const char *way)
{
    const char *by = getenv("BY");
    return by && !strcmp(by, way);
}

static void prepare(void)
{
    if (is_ready)
        return;
    is_ready = 1;
    real_malloc = (void *(*)(size_t))dlsym(RTLD_NEXT, "malloc");
    real_realloc = (void *(*)(void *, size_t))dlsym(RTLD_NEXT, "realloc");
    real_read = (ssize_t (*)(int, void *, size_t))dlsym(RTLD_NEXT, "read");
    real_write = (ssize_t (*)(int, const void *, size_t))dlsym(RTLD_NEXT, "write");
    refused = number("REFUSED");
    largest = number("LARGEST");
    taken = number("TAKEN");
    given = number("GIVEN");
    is_once = getenv("ONCE") != NULL;
    takes_none = is_by("none");
    is_signal = is_by("signal");
}

static int is_refused(size_t size)
{
    counted++;
    asked += (long)size;
    if (largest >= 0 && size > (size_t)largest)
        return 1;
    return refused > 0 && --refused == 0;
}

void *malloc(size_t size)
{
    prepare();
    return is_refused(size) ? NULL : real_malloc(size);
}

void *realloc(void *held, size_t size)
{
    prepare();
    return is_refused(size) ? NULL : real_realloc(held, size);
}

static ssize_t fault(long *left)
{
    if (is_once)
        *left = -1;
    errno = is_signal ? EINTR : EIO;
    return -1;
}

ssize_t read(int file, void *bytes, size_t size)
{
    prepare();
    if (given < 0)
        return real_read(file, bytes, size);
    if (given == 0)
        return fault(&given);
    ssize_t count = real_read(file, bytes, size < (size_t)given ? size : (size_t)given);
    if (count > 0)
        given -= count;
    return count;
}

ssize_t write(int file, const void *bytes, size_t size)
{
    prepare();
    if (file != 1 || taken < 0)
        return real_write(file, bytes, size);
    if (taken == 0) {
        ssize_t failed = fault(&taken);
        return takes_none ? 0 : failed;
    }
    ssize_t count = real_write(file, bytes, size < (size_t)taken ? size : (size_t)taken);
    if (count > 0)
        taken -= count;
    return count;
}

static void put(const char *file, long number)
{
    char digits[32];
    int place = sizeof digits;
    if (!file)
        return;
    prepare();
    digits[--place] = '\n';
    do
        digits[--place] = '0' + number % 10;
    while ((number /= 10) > 0);
    int to = open(file, O_CREAT | O_WRONLY | O_TRUNC, 0600);
    if (to >= 0)
        real_write(to, digits + place, sizeof digits - place);
}

__attribute__((destructor)) static void tell(void)
{
    const char *unmet = getenv("UNMET");
    if (unmet && refused > 0)
        open(unmet, O_CREAT | O_WRONLY, 0600);
    put(getenv("COUNTED"), counted);
    put(getenv("ASKED"), asked);
}
