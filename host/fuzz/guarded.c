#include "guarded.h"

#include <stdio.h>
#include <stdlib.h>
#include <string.h>
#include <sys/mman.h>
#include <unistd.h>

const char *lent_too_long;

static void *mapped(void *at, size_t bytes, int protection, int flags, int file)
{
	void *there = mmap(at, bytes, protection, flags, file, 0);

	if (there == MAP_FAILED) {
		perror("mmap");
		exit(2);
	}
	return there;
}

void reserve(struct memory *m)
{
	size_t page = (size_t)sysconf(_SC_PAGESIZE);
	int reading = m->writable ? PROT_READ | PROT_WRITE : PROT_READ;
	int file = memfd_create(m->name, 0);
	uint8_t *around;

	m->room = (m->room + page - 1) / page * page;
	if (file < 0 || ftruncate(file, (off_t)m->room) != 0) {
		perror("memfd_create");
		exit(2);
	}
	around = mapped(NULL, m->room + 2 * page, PROT_NONE, MAP_PRIVATE | MAP_ANONYMOUS, -1);
	m->lent = mapped(around + page, m->room, reading, MAP_SHARED | MAP_FIXED, file);
	/* a page more, for the harness's own look at a buffer that was lent too long */
	m->own = mapped(NULL, m->room + page, PROT_READ | PROT_WRITE, MAP_PRIVATE | MAP_ANONYMOUS, -1);
	mapped(m->own, m->room, PROT_READ | PROT_WRITE, MAP_SHARED | MAP_FIXED, file);
	close(file);
}

struct lent lend(struct memory *m, enum side side, const void *bytes, size_t given, size_t elements)
{
	size_t len = elements * m->width;
	bool cut = side == AT_END && elements > 0 && lent_too_long && strcmp(lent_too_long, m->name) == 0;

	if (len > m->room || given > len)
		abort();
	memset(m->own + m->at, 0, m->used);
	m->at = side == AT_END ? m->room - len : 0;
	if (cut) {
		m->at += m->width;
		len -= m->width;
		given = given < len ? given : len;
	}
	m->used = m->writable ? len : given;
	if (given)
		memcpy(m->own + m->at, bytes, given);
	return (struct lent){ m->lent + m->at, elements };
}

const void *held(const struct memory *m)
{
	return m->own + m->at;
}
