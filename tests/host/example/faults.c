/*
 * Stands between a program and the system (LD_PRELOAD). FAULT says what goes wrong:
 *
 *     pieces      reading and writing go byte by byte, and every second call is interrupted
 *     full N      N bytes can be written, and then the disk is full
 *     sync N      the N-th fsync fails
 *     lost        what is written comes into the file with the next fsync, so that killing the
 *                 host is as pulling the plug
 */
#define _GNU_SOURCE
#include <dlfcn.h>
#include <errno.h>
#include <stdio.h>
#include <stdlib.h>
#include <string.h>
#include <unistd.h>

static const char *fault = "";
static long limit;
static unsigned calls;

static struct {
	char bytes[64];
	size_t length;
	off_t at;
} held;

static ssize_t (*real_pread)(int, void *, size_t, off_t);
static ssize_t (*real_pwrite)(int, const void *, size_t, off_t);
static int (*real_fsync)(int);

__attribute__((constructor)) static void begin(void)
{
	static char name[16];
	const char *given = getenv("FAULT");
	if (given != NULL && sscanf(given, "%15s %ld", name, &limit) >= 1)
		fault = name;
	*(void **)&real_pread = dlsym(RTLD_NEXT, "pread");
	*(void **)&real_pwrite = dlsym(RTLD_NEXT, "pwrite");
	*(void **)&real_fsync = dlsym(RTLD_NEXT, "fsync");
}

static int is(const char *name)
{
	return strcmp(fault, name) == 0;
}

static int interrupted(void)
{
	errno = EINTR;
	return is("pieces") && calls++ % 2 == 0;
}

ssize_t pread(int fd, void *bytes, size_t n, off_t at)
{
	if (interrupted())
		return -1;
	return real_pread(fd, bytes, is("pieces") && n > 1 ? 1 : n, at);
}

ssize_t pwrite(int fd, const void *bytes, size_t n, off_t at)
{
	if (interrupted())
		return -1;
	if (is("lost") && held.length == 0 && n <= sizeof held.bytes) {
		memcpy(held.bytes, bytes, n);
		held.length = n;
		held.at = at;
		return (ssize_t)n;
	}
	if (is("full") && limit == 0) {
		errno = ENOSPC;
		return -1;
	}
	if (is("full") && (size_t)limit < n)
		n = (size_t)limit;
	if (is("full"))
		limit -= (long)n;
	return real_pwrite(fd, bytes, is("pieces") && n > 1 ? 1 : n, at);
}

int fsync(int fd)
{
	if (interrupted())
		return -1;
	if (is("sync") && --limit == 0) {
		errno = EIO;
		return -1;
	}
	if (held.length > 0 && real_pwrite(fd, held.bytes, held.length, held.at) < 0)
		return -1;
	held.length = 0;
	return real_fsync(fd);
}
