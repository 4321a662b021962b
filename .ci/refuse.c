/* Stands before the C library for .ci/refusals: refuses one call for memory, or one write, by its number in the environment, cuts
   writes short, and tells how many calls of each kind there were. Nothing of the program is built from it. */
#define _GNU_SOURCE
#include <errno.h>
#include <fcntl.h>
#include <stdio.h>
#include <stdlib.h>
#include <sys/syscall.h>
#include <sys/uio.h>
#include <unistd.h>

extern void *__libc_malloc(size_t), *__libc_calloc(size_t, size_t), *__libc_realloc(void *, size_t), *__libc_memalign(size_t, size_t);

static long asked, written;

static long wanted(const char *name)
{
	const char *value = getenv(name);
	return value ? atol(value) : 0;
}

static int is_refused(void)
{
	if (__sync_add_and_fetch(&asked, 1) != wanted("REFUSE_MEMORY"))
		return 0;
	errno = ENOMEM;
	return 1;
}

void *malloc(size_t size) { return is_refused() ? NULL : __libc_malloc(size); }
void *calloc(size_t count, size_t size) { return is_refused() ? NULL : __libc_calloc(count, size); }
void *realloc(void *at, size_t size) { return is_refused() ? NULL : __libc_realloc(at, size); }
void *memalign(size_t align, size_t size) { return is_refused() ? NULL : __libc_memalign(align, size); }
void *aligned_alloc(size_t align, size_t size) { return memalign(align, size); }
int posix_memalign(void **to, size_t align, size_t size) { return (*to = memalign(align, size)) ? 0 : ENOMEM; }

ssize_t write(int file, const void *bytes, size_t count)
{
	if (file != 2 && __sync_add_and_fetch(&written, 1) == wanted("REFUSE_WRITE")) {
		errno = ENOSPC;
		return -1;
	}
	return syscall(SYS_write, file, bytes, count > 1 && wanted("SHORT_WRITES") ? 1 : count);
}

ssize_t __write(int file, const void *bytes, size_t count) { return write(file, bytes, count); }

__attribute__((destructor)) static void tell(void)
{
	char text[64];
	const char *path = getenv("COUNTS");
	int file = path ? open(path, O_WRONLY | O_CREAT | O_TRUNC, 0644) : -1;
	if (file < 0)
		return;
	syscall(SYS_write, file, text, snprintf(text, sizeof text, "%ld %ld\n", asked, written));
	close(file);
}

/* The program may end without the library's own end. */
void _exit(int status)
{
	tell();
	for (;;)
		syscall(SYS_exit_group, status);
}
