// The C calls of a program by which it gets memory, reads and writes, with calls among them that fail.
//
// `tools/build-unproved --failing` links this file into a program. The variable FAILING of its environment is
// 'KIND FIRST LAST MOST COUNTS': of the calls of KIND, which is 'a', allocations, 'r', reads, 'w', writes, 'i', reads and
// writes that a signal interrupts, or another letter for none, those from the FIRST to the LAST fail. They count from 1.
// A read or a write moves MOST bytes at most, and any number where that is 0. At its end the program writes how many
// allocations, reads and writes there were to the descriptor COUNTS, where that is not 0.
//
// It is compiled without headers, so it declares what it uses.
typedef unsigned long size;
typedef long ssize;

extern char *getenv(const char *name);
extern unsigned long strtoul(const char *text, char **end, int base);
extern int *__errno_location(void);
extern void *__libc_malloc(size wanted);
extern void *__libc_realloc(void *old, size wanted);
extern ssize __read(int file, void *bytes, size most);
extern ssize __write(int file, const void *bytes, size most);

enum { INTERRUPTED = 4, IO_ERROR = 5, OUT_OF_MEMORY = 12 };

static char kind = 0;
static unsigned long first = 0, last = 0, most = 0, counts_to = 0;
static unsigned long allocations = 0, reads = 0, writes = 0;

__attribute__((constructor)) static void begin(void) {
    char *text = getenv("FAILING");
    if (text != 0 && *text != 0) {
        kind = *text;
        first = strtoul(text + 1, &text, 10);
        last = strtoul(text, &text, 10);
        most = strtoul(text, &text, 10);
        counts_to = strtoul(text, &text, 10);
    }
}

static void write_number(unsigned long number) {
    char digits[24];
    int at = sizeof digits;
    digits[--at] = '\n';
    do {
        digits[--at] = (char)('0' + number % 10);
        number /= 10;
    } while (number != 0);
    __write((int)counts_to, digits + at, sizeof digits - (size)at);
}

__attribute__((destructor)) static void end(void) {
    if (counts_to != 0) {
        write_number(allocations);
        write_number(reads);
        write_number(writes);
    }
}

static int fails(char of, unsigned long number, int error) {
    if (kind != of || number < first || number > last)
        return 0;
    *__errno_location() = error;
    return 1;
}

static size cut(size wanted) {
    return most != 0 && wanted > most ? most : wanted;
}

void *malloc(size wanted) {
    return fails('a', ++allocations, OUT_OF_MEMORY) ? 0 : __libc_malloc(wanted);
}

void *realloc(void *old, size wanted) {
    return fails('a', ++allocations, OUT_OF_MEMORY) ? 0 : __libc_realloc(old, wanted);
}

ssize read(int file, void *bytes, size wanted) {
    ++reads;
    if (fails('r', reads, IO_ERROR) || fails('i', reads + writes, INTERRUPTED))
        return -1;
    return __read(file, bytes, cut(wanted));
}

ssize write(int file, const void *bytes, size wanted) {
    ++writes;
    if (fails('w', writes, IO_ERROR) || fails('i', reads + writes, INTERRUPTED))
        return -1;
    return __write(file, bytes, cut(wanted));
}
