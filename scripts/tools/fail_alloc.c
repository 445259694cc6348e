/*
 * Refuses the allocation whose number is in FAIL_ALLOC, and all after it where FAIL_ALLOC_ON is
 * set. Where COUNT_ALLOC names a file, writes into it how many bytes the largest request wanted,
 * how many all of them did, and how many requests there were, as the program ends.
 */
#define _GNU_SOURCE
#include <dlfcn.h>
#include <stdio.h>
#include <stdlib.h>

static long count;
static size_t largest, total;

static int refused(size_t size)
{
	const char *fail = getenv("FAIL_ALLOC");
	const long at = fail ? atol(fail) : 0;

	/* Several threads ask. */
	const long now = __atomic_add_fetch(&count, 1, __ATOMIC_RELAXED);

	__atomic_add_fetch(&total, size, __ATOMIC_RELAXED);
	if (size > largest)
		largest = size;
	return at && (getenv("FAIL_ALLOC_ON") ? now >= at : now == at);
}

void *malloc(size_t size)
{
	static void *(*next)(size_t);

	if (!next)
		next = (void *(*)(size_t))dlsym(RTLD_NEXT, "malloc");
	return refused(size) ? NULL : next(size);
}

void *realloc(void *old, size_t size)
{
	static void *(*next)(void *, size_t);

	if (!next)
		next = (void *(*)(void *, size_t))dlsym(RTLD_NEXT, "realloc");
	return refused(size) ? NULL : next(old, size);
}

__attribute__((destructor)) static void write_counts(void)
{
	const char *path = getenv("COUNT_ALLOC");
	const size_t seen[] = { largest, total, (size_t)count };
	FILE *file = path ? fopen(path, "w") : NULL;

	if (file) {
		fprintf(file, "%zu %zu %zu\n", seen[0], seen[1], seen[2]);
		fclose(file);
	}
}

/* A program that ends so runs no destructor. */
__attribute__((noreturn)) void _exit(int status)
{
	void (*next)(int) = (void (*)(int))dlsym(RTLD_NEXT, "_exit");

	write_counts();
	next(status);
	__builtin_unreachable();
}
