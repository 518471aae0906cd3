/* A `read` that fails on one file: preloaded, it reads the file that FAILING names up to byte AFTER, and then answers with an error. */
#define _GNU_SOURCE
#include <dlfcn.h>
#include <errno.h>
#include <stdlib.h>
#include <sys/stat.h>
#include <unistd.h>

ssize_t read(int fd, void *buffer, size_t count) {
    ssize_t (*next)(int, void *, size_t) = (ssize_t(*)(int, void *, size_t))dlsym(RTLD_NEXT, "read");
    const char *failing = getenv("FAILING");
    struct stat named, given;
    if (failing && stat(failing, &named) == 0 && fstat(fd, &given) == 0 && named.st_dev == given.st_dev && named.st_ino == given.st_ino) {
        off_t left = atol(getenv("AFTER")) - lseek(fd, 0, SEEK_CUR);
        if (left <= 0) {
            errno = EIO;
            return -1;
        }
        if ((off_t)count > left) {
            count = left;
        }
    }
    return next(fd, buffer, count);
}
