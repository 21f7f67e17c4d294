/* Lent to the command by LD_PRELOAD: system calls that fail, or take long, as on a disk or a network file system. */
#define _GNU_SOURCE
#include <dlfcn.h>
#include <errno.h>
#include <stdlib.h>
#include <string.h>
#include <sys/stat.h>
#include <sys/types.h>
#include <time.h>
#include <unistd.h>

static int fails(const char *call) {
    const char *asked = getenv("SHIM_FAILS");
    return asked != NULL && strcmp(asked, call) == 0;
}

/* Waits as many milliseconds as the variable says. */
static void wait_for(const char *variable) {
    const char *asked = getenv(variable);
    long milliseconds = asked == NULL ? 0 : atol(asked);
    struct timespec time = {milliseconds / 1000, milliseconds % 1000 * 1000000};
    nanosleep(&time, NULL);
}

/* The start of a file. */
ssize_t read(int fd, void *bytes, size_t size) {
    if (lseek(fd, 0, SEEK_CUR) == 0) {
        wait_for("SHIM_SLOW_READ");
    }
    ssize_t (*next)(int, void *, size_t) = (ssize_t (*)(int, void *, size_t))dlsym(RTLD_NEXT, "read");
    return next(fd, bytes, size);
}

/* The sync of a file, or of a folder. */
int fsync(int fd) {
    struct stat status;
    wait_for("SHIM_SLOW_SYNC");
    if (fails("folder sync") && fstat(fd, &status) == 0 && S_ISDIR(status.st_mode)) {
        errno = EIO;
        return -1;
    }
    int (*next)(int) = (int (*)(int))dlsym(RTLD_NEXT, "fsync");
    return next(fd);
}

int fsetxattr(int fd, const char *name, const void *value, size_t size, int flags) {
    if (fails("attribute")) {
        errno = EPERM;
        return -1;
    }
    int (*next)(int, const char *, const void *, size_t, int) =
        (int (*)(int, const char *, const void *, size_t, int))dlsym(RTLD_NEXT, "fsetxattr");
    return next(fd, name, value, size, flags);
}

int fchown(int fd, uid_t user, gid_t group) {
    if (fails("owner")) {
        errno = EPERM;
        return -1;
    }
    int (*next)(int, uid_t, gid_t) = (int (*)(int, uid_t, gid_t))dlsym(RTLD_NEXT, "fchown");
    return next(fd, user, group);
}

/* A file system that cannot rename without replacing. */
int renameat2(int old_folder, const char *old_name, int new_folder, const char *new_name, unsigned int flags) {
    if (fails("rename")) {
        errno = EINVAL;
        return -1;
    }
    int (*next)(int, const char *, int, const char *, unsigned int) =
        (int (*)(int, const char *, int, const char *, unsigned int))dlsym(RTLD_NEXT, "renameat2");
    return next(old_folder, old_name, new_folder, new_name, flags);
}
