// Loaded before the C library, it tells on standard error in which order a program calls the system to lock, write, cut and sync.
#define _GNU_SOURCE
#include <dlfcn.h>
#include <stdio.h>
#include <sys/file.h>
#include <sys/stat.h>
#include <unistd.h>

// What a descriptor stands for: the journal, its folder, or what the program prints to.
static const char *name(int fd)
{
    struct stat is;
    if (fstat(fd, &is) != 0)
        return "nothing";
    return S_ISDIR(is.st_mode) ? "folder" : S_ISREG(is.st_mode) ? "journal" : "output";
}

int flock(int fd, int how)
{
    dprintf(2, "flock %s%s%s\n", name(fd), how & LOCK_EX ? ", for itself" : "", how & LOCK_NB ? ", at once or not at all" : "");
    return ((int (*)(int, int))dlsym(RTLD_NEXT, "flock"))(fd, how);
}

int fsync(int fd)
{
    dprintf(2, "fsync %s\n", name(fd));
    return ((int (*)(int))dlsym(RTLD_NEXT, "fsync"))(fd);
}

int fdatasync(int fd)
{
    dprintf(2, "fdatasync %s\n", name(fd));
    return ((int (*)(int))dlsym(RTLD_NEXT, "fdatasync"))(fd);
}

int ftruncate(int fd, off_t size)
{
    dprintf(2, "ftruncate %s %ld\n", name(fd), (long)size);
    return ((int (*)(int, off_t))dlsym(RTLD_NEXT, "ftruncate"))(fd, size);
}

ssize_t write(int fd, const void *bytes, size_t size)
{
    dprintf(2, "write %s %zu\n", name(fd), size);
    return ((ssize_t (*)(int, const void *, size_t))dlsym(RTLD_NEXT, "write"))(fd, bytes, size);
}
