/* Notes what a process does to the files of a spool: each write, with its octets, and each sync, in the order in which they are
   made; and each line that it tells on its standard output. For tools/crash only; nothing of the product is C.

   SPOOL_NOTES names the file that the notes go into. A note is a letter, a file's number (its descriptor), an offset and a
   length, each of eight octets, the low one first, and then so many octets: W a write, S a sync, T a line, L a length. */
#define _GNU_SOURCE
#include <dlfcn.h>
#include <fcntl.h>
#include <stdint.h>
#include <stdlib.h>
#include <string.h>
#include <sys/stat.h>
#include <sys/types.h>
#include <unistd.h>

static int notes = -1;

static ssize_t (*real_pwrite)(int, const void *, size_t, off_t);
static ssize_t (*real_write)(int, const void *, size_t);
static int (*real_fdatasync)(int);
static int (*real_fsync)(int);
static int (*real_ftruncate)(int, off_t);

__attribute__((constructor)) static void begin(void) {
    const char *path = getenv("SPOOL_NOTES");
    real_pwrite = (ssize_t (*)(int, const void *, size_t, off_t))dlsym(RTLD_NEXT, "pwrite");
    real_write = (ssize_t (*)(int, const void *, size_t))dlsym(RTLD_NEXT, "write");
    real_fdatasync = (int (*)(int))dlsym(RTLD_NEXT, "fdatasync");
    real_fsync = (int (*)(int))dlsym(RTLD_NEXT, "fsync");
    real_ftruncate = (int (*)(int, off_t))dlsym(RTLD_NEXT, "ftruncate");
    if (path) notes = open(path, O_WRONLY | O_CREAT | O_TRUNC, 0644);
}

static void note(char letter, int fd, uint64_t at, const void *octets, uint64_t length) {
    uint64_t numbers[3] = {(uint64_t)fd, at, length};
    if (notes < 0) return;
    if (real_write(notes, &letter, 1) < 0 || real_write(notes, numbers, sizeof numbers) < 0) _exit(9);
    if (octets && length && real_write(notes, octets, length) < 0) _exit(9);
}

static int is_file(int fd) {
    struct stat found;
    return fd != notes && fstat(fd, &found) == 0 && S_ISREG(found.st_mode);
}

ssize_t pwrite(int fd, const void *octets, size_t length, off_t at) {
    ssize_t answer = real_pwrite(fd, octets, length, at);
    if (answer > 0 && is_file(fd)) note('W', fd, (uint64_t)at, octets, (uint64_t)answer);
    return answer;
}

ssize_t pwrite64(int fd, const void *octets, size_t length, off_t at) { return pwrite(fd, octets, length, at); }

ssize_t write(int fd, const void *octets, size_t length) {
    if (fd == 1) note('T', fd, 0, octets, length);
    return real_write(fd, octets, length);
}

int fdatasync(int fd) {
    int answer = real_fdatasync(fd);
    if (answer == 0) note('S', fd, 0, NULL, 0);
    return answer;
}

int fsync(int fd) {
    int answer = real_fsync(fd);
    if (answer == 0) note('S', fd, 0, NULL, 0);
    return answer;
}

int ftruncate(int fd, off_t length) {
    int answer = real_ftruncate(fd, length);
    if (answer == 0) note('L', fd, (uint64_t)length, NULL, 0);
    return answer;
}

int ftruncate64(int fd, off_t length) { return ftruncate(fd, length); }
