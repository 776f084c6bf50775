/* stack [BTF...]: how many bytes of stack the calls take, measured: each call runs in a thread whose stack was painted, and what is no
 * longer painted was used. The inputs are the deepest that are carried: 32 unnamed levels, 32 nested steps of types, an access of 64
 * parts; and the BTFs that are named, read. Ends with 1 where a call took more than include/leamugi.h says. */
#define _GNU_SOURCE
#include <pthread.h>
#include <stdio.h>
#include <stdlib.h>
#include <string.h>

#include "leamugi.h"

enum { STACK = 1 << 20, PAINT = 0xa5, SAID_IN_THE_HEADER = 48 * 1024 };
enum { INT = 1, PTR = 2, STRUCT = 4, TYPEDEF = 8, FUNC_PROTO = 13 };

/* A BTF in the making. */
struct made {
	uint32_t types[4096];
	size_t words;
	char strings[512];
	size_t text;
	uint32_t last;
	uint8_t bytes[24 + sizeof(uint32_t) * 4096 + 512];
	uint32_t table[1024];
};

/* One call: what it is over, and what it answers. */
struct call {
	struct leamugi_btf *local, *target;
	uint8_t record[16];
	enum leamugi_answer answer;
};

static size_t most;

static uint32_t add(struct made *m, const uint32_t *words, size_t count)
{
	memcpy(m->types + m->words, words, count * sizeof *words);
	m->words += count;
	return ++m->last;
}

#define ADD(m, ...) add(m, (const uint32_t[]){ __VA_ARGS__ }, sizeof((const uint32_t[]){ __VA_ARGS__ }) / sizeof(uint32_t))

/* Where a text begins in the strings. */
static uint32_t text(struct made *m, const char *text)
{
	size_t at = m->text;

	m->text += strlen(text) + 1;
	memcpy(m->strings + at, text, strlen(text) + 1);
	return (uint32_t)at;
}

/* `int`, under id 1. */
static void begin(struct made *m)
{
	memset(m, 0, sizeof *m);
	m->text = 1;
	ADD(m, text(m, "int"), INT << 24, 4, 32);
}

static struct leamugi_btf finished(struct made *m)
{
	uint32_t size = (uint32_t)(m->words * sizeof *m->types);
	uint32_t header[6] = { 0x0001eb9f, 24, 0, size, size, (uint32_t)m->text };
	struct leamugi_btf btf = leamugi_btf_of(m->bytes, 24 + size + m->text, m->table, 1024);

	memcpy(m->bytes, header, 24);
	memcpy(m->bytes + 24, m->types, size);
	memcpy(m->bytes + 24 + size, m->strings, m->text);
	if (leamugi_btf_read(&btf) != LEAMUGI_DONE)
		abort();
	return btf;
}

static void *relocate(void *word)
{
	struct call *call = (struct call *)word;
	uint8_t insns[8] = { 0xb7, 1, 0, 0, 0, 0, 0, 0 }, report[256];
	struct leamugi_function function = { insns, 8, 0, call->record, 16 };
	struct leamugi_said said;

	call->answer = leamugi_relocate_report(call->local, call->target, &function, &said, report, sizeof report);
	return NULL;
}

static void *read_again(void *word)
{
	struct call *call = (struct call *)word;

	call->answer = leamugi_btf_read(call->local);
	return NULL;
}

static void *nothing(void *word)
{
	return word;
}

/* How much of a painted stack a thread uses. */
static size_t used(void *(*run)(void *), void *word)
{
	uint8_t *stack = (uint8_t *)aligned_alloc(4096, STACK);
	pthread_attr_t attr;
	pthread_t thread;
	size_t untouched = 0;

	memset(stack, PAINT, STACK);
	if (pthread_attr_init(&attr) || pthread_attr_setstack(&attr, stack, STACK) || pthread_create(&thread, &attr, run, word) ||
	    pthread_join(thread, NULL))
		abort();
	while (untouched < STACK && stack[untouched] == PAINT)
		untouched++;
	free(stack);
	return STACK - untouched;
}

static void measure(const char *what, void *(*run)(void *), struct call *call)
{
	size_t bytes = used(run, call) - used(nothing, call);

	printf("%s: answer %d, %zu bytes of stack\n", what, call->answer, bytes);
	if (bytes > most)
		most = bytes;
}

/* One record of a kind on the local type of an id. */
static void record(const char *what, struct made *local, struct made *target, uint32_t id, const char *access, uint32_t kind)
{
	uint32_t words[4] = { 0, id, text(local, access), kind };
	struct leamugi_btf l = finished(local), t = finished(target);
	struct call call = { &l, &t, { 0 }, LEAMUGI_DONE };

	memcpy(call.record, words, 16);
	measure(what, relocate, &call);
}

static struct made local, target;

/* The target's struct s has its member b so many unnamed levels down. */
static void unnamed(const char *what, int levels)
{
	uint32_t id, b;

	begin(&local);
	id = ADD(&local, text(&local, "s"), STRUCT << 24 | 1, 4, text(&local, "b"), 1, 0);
	begin(&target);
	b = text(&target, "b");
	ADD(&target, 0, STRUCT << 24 | 1, 4, b, 1, 0);
	while (--levels > 0)
		ADD(&target, 0, STRUCT << 24 | 1, 4, 0, target.last, 0);
	ADD(&target, text(&target, "s"), STRUCT << 24 | 1, 4, 0, target.last, 0);
	record(what, &local, &target, id, "0:0", LEAMUGI_FIELD_OFFSET);
}

/* Pointers to one another, or prototypes that take one another, so deep, under the name t. */
static uint32_t nested(struct made *m, int steps, int prototypes)
{
	while (steps-- > 0)
		if (prototypes)
			ADD(m, 0, FUNC_PROTO << 24 | 1, 0, 0, m->last);
		else
			ADD(m, 0, PTR << 24, m->last);
	return ADD(m, text(m, "t"), TYPEDEF << 24, m->last);
}

static void compatible(const char *what, int steps, int prototypes)
{
	uint32_t id;

	begin(&local);
	id = nested(&local, steps, prototypes);
	begin(&target);
	nested(&target, steps, prototypes);
	record(what, &local, &target, id, "0", LEAMUGI_TYPE_EXISTS);
}

/* Structs within one another, each with the next as its member m, up to an access of so many parts. */
static uint32_t chain(struct made *m, int parts)
{
	uint32_t name = text(m, "m"), id = 1;

	while (--parts > 1)
		id = ADD(m, 0, STRUCT << 24 | 1, 4, name, id, 0);
	return ADD(m, text(m, "s"), STRUCT << 24 | 1, 4, name, id, 0);
}

static void long_access(const char *what, int parts)
{
	char access[256] = "0";
	uint32_t id;

	begin(&local);
	id = chain(&local, parts);
	begin(&target);
	chain(&target, parts);
	for (int k = 1; k < parts; k++)
		strcat(access, ":0");
	record(what, &local, &target, id, access, LEAMUGI_FIELD_OFFSET);
}

static void reading(const char *path)
{
	FILE *f = fopen(path, "rb");
	static uint8_t bytes[16777216];
	static uint32_t table[1048576];
	struct leamugi_btf btf = leamugi_btf_of(bytes, f ? fread(bytes, 1, sizeof bytes, f) : 0, table, 1048576);
	struct call call = { &btf, NULL, { 0 }, LEAMUGI_DONE };

	if (f)
		fclose(f);
	measure(path, read_again, &call);
}

int main(int argc, char **argv)
{
	unnamed("one unnamed level", 1);
	unnamed("32 unnamed levels", 32);
	unnamed("33 unnamed levels", 33);
	unnamed("60 unnamed levels", 60);
	compatible("32 pointers", 32, 0);
	compatible("33 pointers", 33, 0);
	compatible("16 prototypes", 16, 1);
	compatible("32 prototypes", 32, 1);
	compatible("40 prototypes", 40, 1);
	long_access("63 parts", 63);
	long_access("64 parts", 64);
	while (--argc > 0)
		reading(*++argv);
	printf("at most %zu bytes of stack\n", most);
	return most > SAID_IN_THE_HEADER;
}
