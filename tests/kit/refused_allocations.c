/* Loaded before the C library, it refuses the allocation whose number, from 1 on, is in the environment
   as REFUSED, and then writes one byte to the file descriptor 9. When the process ends it writes how many blocks
   were never freed, a line on the file descriptor 8. Rattle's programs allocate by malloc and realloc alone, and
   free by free. It needs no headers. */
typedef unsigned long size;

enum { BLOCKS = 8, REFUSALS = 9 };

extern void *__libc_malloc(size wanted);
extern void *__libc_realloc(void *block, size wanted);
extern void __libc_free(void *block);
extern char *getenv(const char *name);
extern long atol(const char *text);
extern long write(int file, const void *bytes, size count);
extern void _exit(int status);

static long refused = -1;
static long asked = 0;
static long live = 0;

static int is_refused(void)
{
    if (refused < 0) {
        const char *number = getenv("REFUSED");
        refused = number ? atol(number) : 0;
    }
    asked += 1;
    if (asked != refused)
        return 0;
    if (write(REFUSALS, "r", 1) != 1)
        _exit(99);
    return 1;
}

void *malloc(size wanted)
{
    void *block = is_refused() ? 0 : __libc_malloc(wanted);
    live += block != 0;
    return block;
}

void *realloc(void *block, size wanted)
{
    void *moved = is_refused() ? 0 : __libc_realloc(block, wanted);
    live += !block && moved;
    return moved;
}

void free(void *block)
{
    live -= block != 0;
    __libc_free(block);
}

__attribute__((destructor)) static void count_blocks(void)
{
    char digits[24];
    int at = sizeof digits;
    long rest = live < 0 ? -live : live;
    digits[--at] = '\n';
    do
        digits[--at] = '0' + rest % 10;
    while (rest /= 10);
    if (live < 0)
        digits[--at] = '-';
    if (write(BLOCKS, digits + at, sizeof digits - at) < 0)
        _exit(98);
}
