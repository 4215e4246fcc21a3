/* Makes calls to the files of a state fail: the one whose number FAIL_CALL gives, counted from 1 over all calls to FOLDER/state and
   FOLDER/state-wal, or, with FAIL_ON=1, each from that one on. FAIL_HOW says how: a number of errno, or
       short   a read or write of half its bytes
       torn    half of a write is done, and then it fails (EIO)
       lost    a sync fails (EIO), and the file is again what it was at its last sync
   With FAIL_ONCE=FILE each call fails as soon as that file is there, and with FREE_LOCKS=1 each lock of a range of bytes is had at once.
   With HALT_CUT=FILE a change of a length waits as long as that file is there, and makes FILE.halted meanwhile; with HALT_WRITE=FILE a write.
   A call that can't fail so is made as it is. At its end the program writes the count of calls to the file FAIL_TOLD.
   Built by tools/live/refused: cc -shared -fPIC -o failing_calls.so failing_calls.c -ldl; LD_PRELOAD=./failing_calls.so FAIL_CALL=7 .. */
#define _GNU_SOURCE
#include <dlfcn.h>
#include <errno.h>
#include <fcntl.h>
#include <stdarg.h>
#include <stdio.h>
#include <stdlib.h>
#include <string.h>
#include <sys/stat.h>
#include <sys/types.h>
#include <unistd.h>

enum { FILES = 64 };

static long count, failing;
static int goes_on, error_number;
static const char *once;
static char how;
static char *synced[FILES];
static off_t lengths[FILES];
static int is_state[FILES];

static int (*real_open)(const char *, int, ...);
static ssize_t (*real_pread)(int, void *, size_t, off_t);
static ssize_t (*real_pwrite)(int, const void *, size_t, off_t);
static int (*real_fdatasync)(int);
static int (*real_fsync)(int);
static int (*real_ftruncate)(int, off_t);

__attribute__((constructor)) static void begin(void) {
    const char *number = getenv("FAIL_CALL"), *told = getenv("FAIL_HOW"), *on = getenv("FAIL_ON");
    failing = number ? atol(number) : 0;
    goes_on = on && *on == '1';
    how = told ? *told : '0';
    error_number = told && how >= '0' && how <= '9' ? atoi(told) : EIO;
    once = getenv("FAIL_ONCE");
    real_open = dlsym(RTLD_NEXT, "open");
    real_pread = dlsym(RTLD_NEXT, "pread");
    real_pwrite = dlsym(RTLD_NEXT, "pwrite");
    real_fdatasync = dlsym(RTLD_NEXT, "fdatasync");
    real_fsync = dlsym(RTLD_NEXT, "fsync");
    real_ftruncate = dlsym(RTLD_NEXT, "ftruncate");
}

static int fails(void) {
    count++;
    if (once && !access(once, F_OK)) return 1;
    return failing > 0 && (count == failing || (goes_on && count > failing));
}

static int fault(void) {
    errno = error_number;
    return -1;
}

static int names_state(const char *path) {
    const char *name = strrchr(path, '/');
    name = name ? name + 1 : path;
    return !strcmp(name, "state") || !strcmp(name, "state-wal");
}

static int is_of_state(int file) { return file >= 0 && file < FILES && is_state[file]; }

/* Remembers what a file has, at a sync. */
static void remember(int file) {
    struct stat found;
    if (how != 'l' || fstat(file, &found)) return;
    free(synced[file]);
    synced[file] = malloc((size_t)found.st_size + 1);
    lengths[file] = synced[file] ? real_pread(file, synced[file], (size_t)found.st_size, 0) : 0;
}

/* Makes a file what it was at its last sync. */
static void lose(int file) {
    if (!synced[file] || real_ftruncate(file, lengths[file])) return;
    if (real_pwrite(file, synced[file], (size_t)lengths[file], 0) != lengths[file]) abort();
}

int open(const char *path, int flags, ...) {
    va_list more;
    va_start(more, flags);
    mode_t mode = flags & O_CREAT ? va_arg(more, mode_t) : 0;
    va_end(more);
    int of_state = names_state(path);
    if (of_state && fails() && how >= '0' && how <= '9') return fault();
    int file = real_open(path, flags, mode);
    if (file >= 0 && file < FILES) is_state[file] = of_state;
    if (is_of_state(file)) remember(file);
    return file;
}

ssize_t pread(int file, void *bytes, size_t length, off_t at) {
    if (!is_of_state(file) || !fails()) return real_pread(file, bytes, length, at);
    if (how == 's' && length > 1) return real_pread(file, bytes, length / 2, at);
    if (how >= '0' && how <= '9') return fault();
    return real_pread(file, bytes, length, at);
}

/* Waits where it is told to. */
static void halt(const char *name) {
    const char *path = getenv(name);
    char told[4096];
    if (!path || access(path, F_OK)) return;
    snprintf(told, sizeof told, "%s.halted", path);
    close(real_open(told, O_WRONLY | O_CREAT, 0600));
    while (!access(path, F_OK)) usleep(10000);
}

ssize_t pwrite(int file, const void *bytes, size_t length, off_t at) {
    if (is_of_state(file)) halt("HALT_WRITE");
    if (!is_of_state(file) || !fails()) return real_pwrite(file, bytes, length, at);
    if (how == 's' && length > 1) return real_pwrite(file, bytes, length / 2, at);
    if (how == 't') {
        if (length > 1 && real_pwrite(file, bytes, length / 2, at) < 0) abort();
        return fault();
    }
    if (how >= '0' && how <= '9') return fault();
    return real_pwrite(file, bytes, length, at);
}

static int sync_by(int (*real)(int), int file) {
    if (!is_of_state(file)) return real(file);
    if (fails()) {
        if (how == 'l') lose(file);
        if (how == 'l' || (how >= '0' && how <= '9')) return fault();
    }
    int answer = real(file);
    if (!answer) remember(file);
    return answer;
}

int fdatasync(int file) { return sync_by(real_fdatasync, file); }

int fsync(int file) { return sync_by(real_fsync, file); }

int ftruncate(int file, off_t length) {
    if (is_of_state(file)) halt("HALT_CUT");
    if (is_of_state(file) && fails() && how >= '0' && how <= '9') return fault();
    return real_ftruncate(file, length);
}

/* A lock of a range of bytes (F_OFD_SETLK). */
static int lock_by(const char *name, int file, int command, void *more) {
    if (command == F_OFD_SETLK && getenv("FREE_LOCKS")) return 0;
    int (*real)(int, int, ...) = (int (*)(int, int, ...))dlsym(RTLD_NEXT, name);
    return real(file, command, more);
}

int fcntl(int file, int command, ...) {
    va_list more;
    va_start(more, command);
    void *told = va_arg(more, void *);
    va_end(more);
    return lock_by("fcntl", file, command, told);
}

int fcntl64(int file, int command, ...) {
    va_list more;
    va_start(more, command);
    void *told = va_arg(more, void *);
    va_end(more);
    return lock_by("fcntl64", file, command, told);
}

__attribute__((destructor)) static void tell(void) {
    const char *path = getenv("FAIL_TOLD");
    char line[32];
    int file = path ? real_open(path, O_WRONLY | O_CREAT | O_TRUNC, 0600) : -1;
    if (file < 0) return;
    int length = snprintf(line, sizeof line, "%ld\n", count);
    if (write(file, line, (size_t)length) < 0) abort();
    close(file);
}
