/* A library that is loaded before the program's C library, and has one call go wrong. FILC_WRONG tells the kind of call and
   its number among those of the kind, counted from 1: `alloc 12`, or `short write 2`. A byte on the descriptor FILC_MARK tells
   that there was such a call. Linux on x86-64; no header is taken in, so any C compiler does, the kit's too. */

enum { READ, WRITE, OPEN, SEEK = 8 };
enum { EIO = 5, ENOMEM = 12 };

extern char *getenv(const char *name);
extern int *__errno_location(void);
extern long syscall(long number, ...);
extern void *__libc_malloc(unsigned long size);
extern void *__libc_realloc(void *old, unsigned long size);

static const char *wrong = "";
static long left;
static long mark;

static int is_digit(char c)
{
    return '0' <= c && c <= '9';
}

static long number_in(const char *text)
{
    long number = 0;
    while (is_digit(*text)) number = number * 10 + (*text++ - '0');
    return number;
}

__attribute__((constructor)) static void start(void)
{
    const char *told = getenv("FILC_WRONG");
    const char *to = getenv("FILC_MARK");
    if (!told || !to) return;
    mark = number_in(to);
    const char *number = told;
    while (*number && !is_digit(*number)) number++;
    left = number_in(number);
    wrong = told;
}

/* Whether a call of this kind goes wrong. */
static int goes_wrong(const char *kind)
{
    const char *told = wrong;
    while (*kind && *kind == *told) kind++, told++;
    if (*kind || told[0] != ' ' || !is_digit(told[1]) || --left) return 0;
    syscall(WRITE, mark, "!", 1L);
    return 1;
}

static long failed(int error)
{
    *__errno_location() = error;
    return -1;
}

void *malloc(unsigned long size)
{
    if (!goes_wrong("alloc")) return __libc_malloc(size);
    failed(ENOMEM);
    return 0;
}

void *realloc(void *old, unsigned long size)
{
    if (!goes_wrong("alloc")) return __libc_realloc(old, size);
    failed(ENOMEM);
    return 0;
}

int open(const char *path, int how, ...)
{
    return (int)(goes_wrong("open") ? failed(EIO) : syscall(OPEN, path, (long)how, 0L));
}

long lseek(int file, long to, int from)
{
    return goes_wrong("seek") ? failed(EIO) : syscall(SEEK, (long)file, to, (long)from);
}

long read(int file, void *into, unsigned long size)
{
    if (goes_wrong("read")) return failed(EIO);
    if (size > 1 && goes_wrong("short read")) size = 1;
    return syscall(READ, (long)file, into, size);
}

long write(int file, const void *from, unsigned long size)
{
    if (goes_wrong("write")) return failed(EIO);
    if (size > 1 && goes_wrong("short write")) size = 1;
    return syscall(WRITE, (long)file, from, size);
}
