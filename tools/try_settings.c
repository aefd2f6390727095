/* Ends, stops or fails the program that it is loaded into (LD_PRELOAD) at one of its calls on files.
 *
 * The calls open, openat, write, fsync, fchmod, chmod, fchown, chown and rename are counted from 1, and AT is the number of
 * the chosen one. HOW=end ends the process there with status 99, HOW=half too, but a write has written half of its bytes;
 * HOW=stop stops the process until somebody continues it, and then makes the call; HOW=fail returns the error EIO.
 * HOW=list writes the name of each call as a line to descriptor 3, of openat as open. */
#define _GNU_SOURCE
#include <errno.h>
#include <fcntl.h>
#include <signal.h>
#include <stdarg.h>
#include <stdlib.h>
#include <string.h>
#include <sys/syscall.h>
#include <unistd.h>

static unsigned long calls, chosen;
static const char *how = "";

__attribute__((constructor)) static void begin(void) {
    const char *at = getenv("AT"), *what = getenv("HOW");
    chosen = at ? strtoul(at, NULL, 10) : 0;
    if (what) how = what;
}

/* Returns whether the call that begins now fails. */
static int fails(const char *name) {
    if (strcmp(how, "list") == 0) {
        syscall(SYS_write, 3, name, strlen(name));
        syscall(SYS_write, 3, "\n", 1);
    }
    if (++calls != chosen) return 0;
    if (strcmp(how, "stop") == 0) raise(SIGSTOP);
    if (strcmp(how, "end") == 0 || strcmp(how, "half") == 0) _exit(99);
    errno = EIO;
    return strcmp(how, "fail") == 0;
}

int openat(int folder, const char *path, int flags, ...) {
    va_list more;
    va_start(more, flags);
    mode_t mode = flags & O_CREAT ? va_arg(more, mode_t) : 0;
    va_end(more);
    return fails("open") ? -1 : (int)syscall(SYS_openat, folder, path, flags, mode);
}

int open(const char *path, int flags, ...) {
    va_list more;
    va_start(more, flags);
    mode_t mode = flags & O_CREAT ? va_arg(more, mode_t) : 0;
    va_end(more);
    return fails("open") ? -1 : (int)syscall(SYS_openat, AT_FDCWD, path, flags, mode);
}

ssize_t write(int file, const void *buffer, size_t size) {
    if (calls + 1 == chosen && strcmp(how, "half") == 0) syscall(SYS_write, file, buffer, size / 2);
    return fails("write") ? -1 : syscall(SYS_write, file, buffer, size);
}

int fsync(int file) { return fails("fsync") ? -1 : (int)syscall(SYS_fsync, file); }

int fchmod(int file, mode_t mode) { return fails("fchmod") ? -1 : (int)syscall(SYS_fchmod, file, mode); }

int chmod(const char *path, mode_t mode) {
    return fails("chmod") ? -1 : (int)syscall(SYS_fchmodat, AT_FDCWD, path, mode);
}

int fchown(int file, uid_t owner, gid_t group) {
    return fails("fchown") ? -1 : (int)syscall(SYS_fchown, file, owner, group);
}

int chown(const char *path, uid_t owner, gid_t group) {
    return fails("chown") ? -1 : (int)syscall(SYS_fchownat, AT_FDCWD, path, owner, group, 0);
}

int rename(const char *from, const char *to) {
    return fails("rename") ? -1 : (int)syscall(SYS_renameat, AT_FDCWD, from, AT_FDCWD, to);
}
