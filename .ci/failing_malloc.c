/* Fails the call of malloc or realloc whose number, from 1, stands in FAILING, and writes a byte to
 * the file descriptor of FAILED. At the end it writes how many calls there were to that of COUNTED. */

extern void *__libc_malloc(unsigned long size);
extern void *__libc_realloc(void *block, unsigned long size);
extern char *getenv(const char *name);
extern unsigned long strtoul(const char *text, char **end, int base);
extern long write(int file, const void *bytes, unsigned long count);

static unsigned long calls, calls_left;
static int report, count;

static unsigned long number(const char *name) {
    const char *text = getenv(name);
    return text ? strtoul(text, 0, 10) : 0;
}

__attribute__((constructor)) static void start(void) {
    calls_left = number("FAILING");
    report = (int)number("FAILED");
    count = (int)number("COUNTED");
}

__attribute__((destructor)) static void end(void) {
    char digits[20];
    unsigned long at = sizeof digits;
    if (!count) return;
    do digits[--at] = (char)('0' + calls % 10);
    while (calls /= 10);
    write(count, digits + at, sizeof digits - at);
}

static int fails(void) {
    calls++;
    if (calls_left == 0 || --calls_left != 0) return 0;
    write(report, "!", 1);
    return 1;
}

void *malloc(unsigned long size) { return fails() ? 0 : __libc_malloc(size); }

void *realloc(void *block, unsigned long size) { return fails() ? 0 : __libc_realloc(block, size); }
