/* What the fuzz target's files share: the memory lent to the library, an input, the way of a call. */
#ifndef FUZZ_H
#define FUZZ_H

#include <stdbool.h>
#include <stddef.h>
#include <stdint.h>

#include "guarded.h"
#include "leamugi.h"

/* docs/SCOPE.md, section 2; the kernel's BTF document; the sizes of lent things */
#define MAX_BYTES 16777216
#define MAX_TYPES 1048575
#define MAX_INSNS 4096
#define RECORD 16
#define SAID 6 /* the most entries of `said` that are lent, one more than is written */
#define TABLE_ROOM (MAX_TYPES + 129)
#define BTF_ROOM (2 * MAX_BYTES + 65536)
#define LIST_ROOM (2 * 65536)
#define OUT_ROOM (LIST_ROOM / RECORD * 96)

/* Every byte that a call is to leave alone. */
#define UNTOUCHED 0xa5
#define UNTOUCHED_NUMBER 0xa5a5a5a5a5a5a5a5u

/* The memory of each argument; a BTF's table and numbers are the two behind it. TABLE is the one that a reading fills. */
enum { LOCAL, LTABLE, LREAD, TARGET, TTABLE, TREAD, INSNS, RECORDS, TABLE, SAYS, OUT, MEMORIES };
extern struct memory memory[MEMORIES];

/* Bytes that the input gives, and zeros behind them up to a length. */
struct bytes {
	const uint8_t *at;
	size_t given;
	size_t len;
};

struct btf {
	int memory; /* LOCAL or TARGET */
	struct bytes bytes;
	uint8_t whole[BTF_ROOM]; /* the bytes, where the types come many times over */
	size_t times, once;      /* so many times, of so many bytes each */
	uint32_t table[TABLE_ROOM];
	size_t entries;
	uint64_t read[SAID];
	size_t numbers;
	bool own; /* table and numbers as a reading left them */
};

struct input {
	struct btf *local, *target;
	struct bytes insns, records;
	uint64_t section;
	size_t said, out;
};

/* A breach of what include/leamugi.h says is an abort. */
#define MUST(so)                                                                                                            \
	do {                                                                                                                \
		if (!(so))                                                                                                  \
			breach(__FILE__, __LINE__, #so);                                                                    \
	} while (0)
void breach(const char *file, int line, const char *what);

/* Around each call of the library. */
void begin(void);
uint32_t ended(uint32_t number);

uint64_t number_at(const uint8_t *at, size_t width);
size_t least(size_t a, size_t b);
uint32_t last_of(const struct btf *b);

/* A BTF as it is lent, and the six words by which a call takes it. */
struct lent_btf {
	struct lent bytes, table, read;
};
struct lent_btf lend_btf(const struct btf *b, enum side side);
#define WORDS(btf)                                                                                                          \
	(btf).bytes.at, (btf).bytes.len, (const uint32_t *)(btf).table.at, (btf).table.len, (const uint64_t *)(btf).read.at, \
		(btf).read.len

/* The reading's own table and numbers, none where it is refused. */
void read_own(struct btf *b);

/* The calls on an input, each against both of a buffer's ends. */
void try_read(const struct input *in);
void try_look(const struct input *in, bool entry);
void try_relocate(const struct input *in);

#endif
