/* Loaded before the C library, it tells each file that is opened, each read and each write, a line each on the file
   descriptor 9: what was done, the path, and for what it was opened or how many bytes were moved, -1 where it failed. A file
   that the open may create has the mode after the use, in octal digits, as `write:666`.
   The call that the environment names as FAILS, such as "read 3" for the third read, is not made and fails with the
   error of the number ERRNO; its line ends in "refused".
   Rattle's programs open by openat, relative to where they run. It needs no headers. */
typedef unsigned long size;

extern int __open(const char *path, int flags, ...);
extern long __read(int file, void *bytes, size count);
extern long __write(int file, const void *bytes, size count);
extern char *getenv(const char *name);
extern long atol(const char *text);
extern int *__errno_location(void);

enum { FILES = 32, LONGEST = 100, TOLD = 9 };
enum { OPENS, READS, WRITES };
enum { MAY_CREATE = 0100 };

static char paths[FILES][LONGEST] = {"input", "output", "errors"};

/* Puts the text behind the first `used` bytes of the line, and answers how many there are now. */
static int put(char *line, int used, const char *text)
{
    while (*text && used < 2 * LONGEST)
        line[used++] = *text++;
    return used;
}

static void tell(const char *what, const char *path, const char *how)
{
    char line[2 * LONGEST + 1];
    int used = put(line, 0, what);
    used = put(line, used, " ");
    used = put(line, used, path);
    used = put(line, used, " ");
    used = put(line, used, how);
    line[used++] = '\n';
    __write(TOLD, line, used);
}

/* Whether this call, of those of its kind, is the one that fails. */
static int is_refused(int kind)
{
    static const char *const names[] = {"open ", "read ", "write "};
    static long made[3];
    const char *name = names[kind];
    const char *wanted = getenv("FAILS");
    made[kind] += 1;
    if (!wanted)
        return 0;
    while (*name && *name == *wanted)
        name++, wanted++;
    if (*name || atol(wanted) != made[kind])
        return 0;
    *__errno_location() = atol(getenv("ERRNO"));
    return 1;
}

static const char *path_of(int file)
{
    return file >= 0 && file < FILES ? paths[file] : "?";
}

static long told_count(const char *what, int file, long count)
{
    char digits[24];
    int at = sizeof digits - 1;
    long rest = count < 0 ? 1 : count;
    digits[at] = 0;
    do
        digits[--at] = '0' + rest % 10;
    while (rest /= 10);
    if (count < 0)
        digits[--at] = '-';
    tell(what, path_of(file), digits + at);
    return count;
}

/* For what a file is opened, and with which mode if the open may create it. */
static const char *use_of(int flags, int mode)
{
    static const char *const uses[] = {"read", "write", "both", "?"};
    static char use[LONGEST];
    int used = put(use, 0, uses[flags & 3]);
    if (flags & MAY_CREATE) {
        use[used++] = ':';
        for (int shift = 6; shift >= 0; shift -= 3)
            use[used++] = '0' + ((mode >> shift) & 7);
    }
    use[used] = 0;
    return use;
}

static int told_open(const char *path, int flags, int mode)
{
    int file;
    if (is_refused(OPENS)) {
        tell("open", path, "refused");
        return -1;
    }
    file = __open(path, flags, mode);
    tell("open", path, use_of(flags, mode));
    if (file >= 0 && file < FILES)
        paths[file][put(paths[file], 0, path) % LONGEST] = 0;
    return file;
}

int open(const char *path, int flags, int mode)
{
    return told_open(path, flags, mode);
}

int openat(int folder, const char *path, int flags, int mode)
{
    (void)folder;
    return told_open(path, flags, mode);
}

long read(int file, void *bytes, size count)
{
    if (is_refused(READS)) {
        tell("read", path_of(file), "refused");
        return -1;
    }
    return told_count("read", file, __read(file, bytes, count));
}

long write(int file, const void *bytes, size count)
{
    if (is_refused(WRITES)) {
        tell("write", path_of(file), "refused");
        return -1;
    }
    return told_count("write", file, __write(file, bytes, count));
}
