/* The part of a program that calls the system, by POSIX: `main`, and the functions that ipld.c and
 * ipld_links.c call.
 *
 *     cc -O2 ipld.c posix.c -o ipld
 *
 * Those files are made from a module for Linux on x86-64. So flags, modes and errors have the
 * numbers of Linux here, records have the layout of x86-64, and sizes have 64 bits. Each function
 * does the same as the function of POSIX with its name. If that fails, it returns -1, and
 * `host_errno` returns the error. `host_realpath` returns NULL instead.
 *
 * It was run on Linux with glibc and with musl. It needs POSIX.1-2008, and also `flock` and
 * `getentropy`. */

/* With _GNU_SOURCE strerror_r is not that of POSIX. */
#undef _GNU_SOURCE
#ifndef _DEFAULT_SOURCE
#define _DEFAULT_SOURCE 1
#endif
#define _XOPEN_SOURCE 700
#define _FILE_OFFSET_BITS 64
#define _TIME_BITS 64

#include <dirent.h>
#include <errno.h>
#include <fcntl.h>
#include <limits.h>
#include <signal.h>
#include <stddef.h>
#include <stdint.h>
#include <stdio.h>
#include <stdlib.h>
#include <string.h>
#include <sys/file.h>
#include <sys/stat.h>
#include <time.h>
#include <unistd.h>

#if SEEK_SET != 0 || SEEK_CUR != 1 || SEEK_END != 2
#error "lseek has other numbers here than on Linux"
#endif
#if LOCK_SH != 1 || LOCK_EX != 2 || LOCK_NB != 4 || LOCK_UN != 8
#error "flock has other numbers here than on Linux"
#endif

typedef char offsets_have_64_bits[sizeof(off_t) == 8 ? 1 : -1];

static const uint64_t FAILED = UINT64_MAX;
static int word_count;
static char **words_given;

uint32_t program_main(void);

int main(int count, char **words) {
    word_count = count;
    words_given = words;
    return (int)program_main();
}

/* ---- Numbers */

/* The errors above 34, and EAGAIN, which have other numbers on some systems. */
static const struct {
    int on_linux, here;
} ERRORS[] = {
    {11, EAGAIN},     {35, EDEADLK},   {36, ENAMETOOLONG}, {38, ENOSYS},  {39, ENOTEMPTY},
    {40, ELOOP},      {75, EOVERFLOW}, {84, EILSEQ},       {95, ENOTSUP}, {104, ECONNRESET},
    {110, ETIMEDOUT}, {116, ESTALE},   {122, EDQUOT},
};
enum { KNOWN_ERRORS = sizeof ERRORS / sizeof *ERRORS, UNKNOWN_ERROR = 4096 };

static int error_here(int number) {
    int at;
    for (at = 0; at < KNOWN_ERRORS; at++)
        if (ERRORS[at].on_linux == number) return ERRORS[at].here;
    return number >= UNKNOWN_ERROR ? number - UNKNOWN_ERROR : number;
}

/* Returns the number of an error on Linux. An unknown error gets a number that Linux doesn't have,
 * if its own has another meaning there. */
static int error_on_linux(int number) {
    int at;
    for (at = 0; at < KNOWN_ERRORS; at++)
        if (ERRORS[at].here == number) return ERRORS[at].on_linux;
    return error_here(number) == number ? number : number + UNKNOWN_ERROR;
}

uint32_t host_errno(void) { return (uint32_t)error_on_linux(errno); }

void host_set_errno(uint32_t number) { errno = error_here((int)number); }

uint32_t host_strerror_r(uint32_t number, uint8_t *to, uint64_t size) {
    return (uint32_t)strerror_r(error_here((int)number), (char *)to, (size_t)size);
}

/* Writes a number of this many bytes, the lowest one first. */
static void put(uint8_t *to, int bytes, uint64_t number) {
    int at;
    for (at = 0; at < bytes; at++) to[at] = (uint8_t)(number >> 8 * at);
}

/* Returns the number of 8 bytes, of which the lowest one is the first. */
static uint64_t number_at(const uint8_t *from) {
    uint64_t number = 0;
    int at;
    for (at = 7; at >= 0; at--) number = number << 8 | from[at];
    return number;
}

/* Returns the number of bytes to read or write at once. */
static size_t at_most(uint64_t size) { return size > SSIZE_MAX ? SSIZE_MAX : (size_t)size; }

/* ---- The process */

/* Writes a text, without a zero byte at the end. Returns its length, or -1 if there is no text. If it
 * is longer than `size` bytes, it writes as many and returns -2. */
static uint64_t copy_text(const char *text, uint8_t *to, uint64_t size) {
    size_t length;
    if (text == NULL) return FAILED;
    length = strlen(text);
    memcpy(to, text, length < size ? length : (size_t)size);
    return length <= size ? length : FAILED - 1;
}

/* Writes the argument of the program with this number, as `copy_text` does. */
uint64_t host_arg(uint64_t number, uint8_t *to, uint64_t size) {
    return copy_text(number < (uint64_t)word_count ? words_given[number] : NULL, to, size);
}

/* Writes a variable of the environment, as `copy_text` does. */
uint64_t host_env(uint8_t *name, uint8_t *to, uint64_t size) {
    return copy_text(getenv((const char *)name), to, size);
}

uint32_t host_getpid(void) { return (uint32_t)getpid(); }

uint32_t host_isatty(uint32_t file) { return (uint32_t)isatty((int)file); }

/* Sets SIGPIPE to be ignored. It fails for any other arguments, which no program uses. */
uint64_t host_signal(uint32_t number, uint64_t handler) {
    if (number == 13 && handler == 1) return signal(SIGPIPE, SIG_IGN) == SIG_ERR ? FAILED : 0;
    errno = EINVAL;
    return FAILED;
}

uint32_t host_getentropy(uint8_t *to, uint64_t size) {
    return (uint32_t)getentropy(to, (size_t)size);
}

/* Writes the seconds and the nanoseconds, of 8 bytes each. */
uint32_t host_clock_gettime(uint32_t number, uint8_t *to) {
    struct timespec now;
    if (number > 1) {
        errno = EINVAL;
        return (uint32_t)-1;
    }
    if (clock_gettime(number ? CLOCK_MONOTONIC : CLOCK_REALTIME, &now)) return (uint32_t)-1;
    put(to, 8, (uint64_t)now.tv_sec);
    put(to + 8, 8, (uint64_t)now.tv_nsec);
    return 0;
}

/* ---- Open files */

uint32_t host_open(uint8_t *path, uint32_t flags, uint32_t mode) {
    static const struct {
        uint32_t on_linux;
        int here;
    } FLAGS[] = {
        {1, O_WRONLY},     {2, O_RDWR},      {0x40, O_CREAT},   {0x80, O_EXCL},
        {0x100, O_NOCTTY}, {0x200, O_TRUNC}, {0x400, O_APPEND}, {0x80000, O_CLOEXEC},
    };
    int here = (flags & 3) == 0 ? O_RDONLY : 0;
    size_t at;
    for (at = 0; at < sizeof FLAGS / sizeof *FLAGS; at++) {
        if (flags & FLAGS[at].on_linux) here |= FLAGS[at].here;
        flags &= ~FLAGS[at].on_linux;
    }
    if (flags) {
        errno = EINVAL;
        return (uint32_t)-1;
    }
    return (uint32_t)open((const char *)path, here, (mode_t)mode);
}

/* The folder whose entries are being read, its number, and the next entry, if it was read. */
static DIR *folder_read;
static uint32_t number_read;
static struct dirent *entry_read;

static void end_folder(void) {
    if (folder_read) closedir(folder_read);
    folder_read = NULL;
    entry_read = NULL;
}

uint32_t host_close(uint32_t file) {
    if (folder_read && number_read == file) end_folder();
    return (uint32_t)close((int)file);
}

uint64_t host_read(uint32_t file, uint8_t *to, uint64_t size) {
    return (uint64_t)read((int)file, to, at_most(size));
}

uint64_t host_pread(uint32_t file, uint8_t *to, uint64_t size, uint64_t offset) {
    return (uint64_t)pread((int)file, to, at_most(size), (off_t)offset);
}

uint64_t host_write(uint32_t file, uint8_t *from, uint64_t size) {
    return (uint64_t)write((int)file, from, at_most(size));
}

uint64_t host_lseek(uint32_t file, uint64_t offset, uint32_t from) {
    return (uint64_t)lseek((int)file, (off_t)offset, (int)from);
}

uint32_t host_ftruncate(uint32_t file, uint64_t size) {
    return (uint32_t)ftruncate((int)file, (off_t)size);
}

uint32_t host_fchmod(uint32_t file, uint32_t mode) {
    return (uint32_t)fchmod((int)file, (mode_t)mode);
}

/* Returns a time from its seconds and nanoseconds, of 8 bytes each. Two numbers of nanoseconds mean
 * the current time, and that the time stays. */
static struct timespec time_at(const uint8_t *from) {
    struct timespec time;
    uint64_t nanoseconds = number_at(from + 8);
    time.tv_sec = (time_t)(int64_t)number_at(from);
    time.tv_nsec = (long)nanoseconds;
    if (nanoseconds == 0x3fffffff) time.tv_nsec = UTIME_NOW;
    if (nanoseconds == 0x3ffffffe) time.tv_nsec = UTIME_OMIT;
    return time;
}

/* Sets the time of the last access, and that of the last change. */
uint32_t host_futimens(uint32_t file, uint8_t *from) {
    struct timespec times[2];
    times[0] = time_at(from);
    times[1] = time_at(from + 16);
    return (uint32_t)futimens((int)file, times);
}

uint32_t host_fsync(uint32_t file) { return (uint32_t)fsync((int)file); }

uint32_t host_fdatasync(uint32_t file) { return (uint32_t)fdatasync((int)file); }

uint32_t host_flock(uint32_t file, uint32_t lock) { return (uint32_t)flock((int)file, (int)lock); }

/* ---- Folders */

/* If `from` is -100, it is the working directory. A link at the end of the path is not followed. */
uint32_t host_open_dir_at(uint32_t from, uint8_t *path) {
    return (uint32_t)openat(from == (uint32_t)-100 ? AT_FDCWD : (int)from, (const char *)path,
                            O_RDONLY | O_DIRECTORY | O_NOFOLLOW | O_CLOEXEC);
}

static uint32_t begin_folder(uint32_t file) {
    int copy, error;
    end_folder();
    copy = dup((int)file);
    if (copy < 0) return 0;
    folder_read = fdopendir(copy);
    number_read = file;
    if (folder_read) return 1;
    error = errno;
    close(copy);
    errno = error;
    return 0;
}

/* Writes the next entries as Linux's `struct linux_dirent64`, without their types and offsets.
 * Returns the number of their bytes, 0 at the end, or -1. */
uint64_t host_getdents64(uint32_t file, uint8_t *to, uint64_t size) {
    uint64_t used = 0;
    if (!(folder_read && number_read == file) && !begin_folder(file)) return FAILED;
    for (;;) {
        size_t name, whole;
        errno = 0;
        if (!entry_read) entry_read = readdir(folder_read);
        if (!entry_read) {
            int error = errno;
            if (used) return used;
            end_folder();
            errno = error;
            return error ? FAILED : 0;
        }
        name = strlen(entry_read->d_name) + 1;
        whole = (19 + name + 7) / 8 * 8;
        if (whole > size - used) {
            if (used) return used;
            errno = EINVAL;
            return FAILED;
        }
        memset(to + used, 0, whole);
        put(to + used, 8, (uint64_t)entry_read->d_ino);
        put(to + used + 16, 2, whole);
        memcpy(to + used + 19, entry_read->d_name, name);
        used += whole;
        entry_read = NULL;
    }
}

/* ---- Files by their names */

uint32_t host_unlink(uint8_t *path) { return (uint32_t)unlink((const char *)path); }

/* The only flag removes a folder. */
uint32_t host_unlinkat(uint32_t folder, uint8_t *path, uint32_t flags) {
    if (flags & ~(uint32_t)0x200) {
        errno = EINVAL;
        return (uint32_t)-1;
    }
    return (uint32_t)unlinkat(folder == (uint32_t)-100 ? AT_FDCWD : (int)folder, (const char *)path,
                              flags ? AT_REMOVEDIR : 0);
}

uint32_t host_mkdir(uint8_t *path, uint32_t mode) {
    return (uint32_t)mkdir((const char *)path, (mode_t)mode);
}

uint32_t host_rmdir(uint8_t *path) { return (uint32_t)rmdir((const char *)path); }

uint32_t host_chmod(uint8_t *path, uint32_t mode) {
    return (uint32_t)chmod((const char *)path, (mode_t)mode);
}

uint32_t host_symlink(uint8_t *target, uint8_t *path) {
    return (uint32_t)symlink((const char *)target, (const char *)path);
}

uint64_t host_readlink(uint8_t *path, uint8_t *to, uint64_t size) {
    return (uint64_t)readlink((const char *)path, (char *)to, at_most(size));
}

uint32_t host_link(uint8_t *from, uint8_t *to) {
    return (uint32_t)link((const char *)from, (const char *)to);
}

uint32_t host_rename(uint8_t *from, uint8_t *to) {
    return (uint32_t)rename((const char *)from, (const char *)to);
}

/* Writes the path, of at most 4,096 bytes with a zero byte at the end. */
uint8_t *host_realpath(uint8_t *path, uint8_t *to) {
    char *found = realpath((const char *)path, NULL);
    size_t size;
    if (!found) return NULL;
    size = strlen(found) + 1;
    if (size <= 4096) memcpy(to, found, size);
    free(found);
    if (size <= 4096) return to;
    errno = ENAMETOOLONG;
    return NULL;
}

/* Returns the number of a kind of files on Linux. */
static uint32_t kind_of(mode_t mode) {
    if (S_ISREG(mode)) return 0100000;
    if (S_ISDIR(mode)) return 0040000;
    if (S_ISLNK(mode)) return 0120000;
    if (S_ISFIFO(mode)) return 0010000;
    if (S_ISCHR(mode)) return 0020000;
    if (S_ISBLK(mode)) return 0060000;
    return S_ISSOCK(mode) ? 0140000 : 0;
}

static void put_time(uint8_t *to, const struct timespec *time) {
    put(to, 8, (uint64_t)time->tv_sec);
    put(to + 8, 4, (uint64_t)time->tv_nsec);
}

/* Writes the 256 bytes of Linux's `struct statx`, by fstat for an empty path, otherwise by fstatat.
 * The time of creation is missing. A device's number is split into two halves, and not into major
 * and minor. */
uint32_t host_statx(uint32_t folder, uint8_t *path, uint32_t flags, uint32_t mask, uint8_t *to) {
    struct stat found;
    int failed, here = flags & 0x100 ? AT_SYMLINK_NOFOLLOW : 0;
    (void)mask;
    if (flags & 0x1000 && !*path)
        failed = fstat((int)folder, &found);
    else
        failed = fstatat(folder == (uint32_t)-100 ? AT_FDCWD : (int)folder, (const char *)path,
                         &found, here);
    if (failed) return (uint32_t)-1;
    memset(to, 0, 256);
    put(to, 4, 0x7ff);
    put(to + 4, 4, (uint64_t)found.st_blksize);
    put(to + 16, 4, (uint64_t)found.st_nlink);
    put(to + 20, 4, (uint64_t)found.st_uid);
    put(to + 24, 4, (uint64_t)found.st_gid);
    put(to + 28, 2, kind_of(found.st_mode) | (found.st_mode & 07777));
    put(to + 32, 8, (uint64_t)found.st_ino);
    put(to + 40, 8, (uint64_t)found.st_size);
    put(to + 48, 8, (uint64_t)found.st_blocks);
    put_time(to + 64, &found.st_atim);
    put_time(to + 96, &found.st_ctim);
    put_time(to + 112, &found.st_mtim);
    put(to + 128, 4, (uint64_t)found.st_rdev >> 32);
    put(to + 132, 4, (uint64_t)found.st_rdev);
    put(to + 136, 4, (uint64_t)found.st_dev >> 32);
    put(to + 140, 4, (uint64_t)found.st_dev);
    return 0;
}
