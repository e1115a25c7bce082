/* Stands before the C library (LD_PRELOAD): refuses growths, and has standard input and output fail.
 *
 *   REFUSE_GROWTH=N     the Nth allocation is refused, from 1; with N.. all from the Nth on
 *   FAIL_READ=N         the Nth read of standard input fails
 *   SHORT_READ=K        a read of standard input gives K bytes at the most
 *   FAIL_WRITE=N        the Nth write to standard output fails
 *   EMPTY_WRITE=N       the Nth write to standard output takes nothing
 *   SHORT_WRITE=K       a write to standard output takes K bytes at the most
 *
 * The first refusal, and each failing, is told in a line of standard error that begins with '@'.
 */
typedef __SIZE_TYPE__ size_t;
typedef __PTRDIFF_TYPE__ ssize_t;

/* No header is read, so that the toolchain's own compiler does: the numbers are those of Linux on x86-64. */
enum { SYS_READ = 0, SYS_WRITE = 1, INPUT_FAILED = 5, NO_MEMORY = 12 };

extern char *getenv(const char *name);
extern unsigned long strtoul(const char *text, char **end, int base);
extern char *strstr(const char *text, const char *part);
extern size_t strlen(const char *text);
extern long syscall(long number, ...);
extern int *__errno_location(void);
extern void *__libc_malloc(size_t size);
extern void *__libc_calloc(size_t count, size_t size);
extern void *__libc_realloc(void *block, size_t size);
extern void *__libc_memalign(size_t alignment, size_t size);

static unsigned long growths, refused, reads, failing_read, writes, failing_write, empty_write;
static unsigned long most_read = -1, most_written = -1;
static int all_from_there, was_told;

static unsigned long number(const char *name, unsigned long otherwise)
{
    const char *text = getenv(name);
    return text && *text ? strtoul(text, 0, 10) : otherwise;
}

__attribute__((constructor)) static void begin(void)
{
    const char *text = getenv("REFUSE_GROWTH");
    all_from_there = text && strstr(text, "..");
    refused = number("REFUSE_GROWTH", 0);
    failing_read = number("FAIL_READ", 0);
    failing_write = number("FAIL_WRITE", 0);
    empty_write = number("EMPTY_WRITE", 0);
    most_read = number("SHORT_READ", -1);
    most_written = number("SHORT_WRITE", -1);
    growths = 0;
}

static void tell(const char *line)
{
    syscall(SYS_WRITE, 2, line, strlen(line));
}

static int is_refused(void)
{
    growths++;
    if (!refused || growths < refused || (growths > refused && !all_from_there))
        return 0;
    if (!was_told)
        tell("@refused\n");
    was_told = 1;
    *__errno_location() = NO_MEMORY;
    return 1;
}

void *malloc(size_t size)
{
    return is_refused() ? 0 : __libc_malloc(size);
}

void *calloc(size_t count, size_t size)
{
    return is_refused() ? 0 : __libc_calloc(count, size);
}

void *realloc(void *block, size_t size)
{
    return is_refused() ? 0 : __libc_realloc(block, size);
}

void *aligned_alloc(size_t alignment, size_t size)
{
    return is_refused() ? 0 : __libc_memalign(alignment, size);
}

void *memalign(size_t alignment, size_t size)
{
    return is_refused() ? 0 : __libc_memalign(alignment, size);
}

int posix_memalign(void **block, size_t alignment, size_t size)
{
    if (is_refused())
        return NO_MEMORY;
    *block = __libc_memalign(alignment, size);
    return *block ? 0 : NO_MEMORY;
}

static size_t least(size_t one, size_t other)
{
    return one < other ? one : other;
}

ssize_t read(int file, void *bytes, size_t count)
{
    if (file != 0)
        return syscall(SYS_READ, file, bytes, count);
    if (++reads == failing_read) {
        tell("@failed\n");
        *__errno_location() = INPUT_FAILED;
        return -1;
    }
    return syscall(SYS_READ, file, bytes, least(count, most_read));
}

ssize_t write(int file, const void *bytes, size_t count)
{
    if (file != 1)
        return syscall(SYS_WRITE, file, bytes, count);
    writes++;
    if (writes == failing_write) {
        tell("@failed\n");
        *__errno_location() = INPUT_FAILED;
        return -1;
    }
    if (writes == empty_write) {
        tell("@failed\n");
        return 0;
    }
    return syscall(SYS_WRITE, file, bytes, least(count, most_written));
}

ssize_t __write(int file, const void *bytes, size_t count)
{
    return write(file, bytes, count);
}
