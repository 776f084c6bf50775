/* Memory to lend: a buffer's end touches a page that faults when touched, or its beginning does. What a call may not write is
 * mapped read-only; the harness writes there by a second mapping of the same memory. */
#ifndef GUARDED_H
#define GUARDED_H

#include <stdbool.h>
#include <stddef.h>
#include <stdint.h>

/* Which end of a buffer lies against a page that faults. */
enum side { AT_END, AT_BEGINNING };

struct memory {
	const char *name;
	size_t width; /* bytes of an element */
	size_t room;
	bool writable;
	uint8_t *lent; /* as the library sees it, between two pages that fault */
	uint8_t *own;  /* the same memory, always writable */
	size_t at;     /* where the bytes lie that were put there last */
	size_t used;
};

struct lent {
	uint8_t *at;
	size_t len; /* in elements */
};

/* Maps the memory; its name, width, room and whether it is writable are set. */
void reserve(struct memory *m);

/* `elements` elements against a page that faults: the `given` bytes and zeros behind them. */
struct lent lend(struct memory *m, enum side side, const void *bytes, size_t given, size_t elements);

/* What is in a lent buffer. */
const void *held(const struct memory *m);

/* The memory of this name whose buffers are lent one element longer than they are, to show that a touch is seen. */
extern const char *lent_too_long;

#endif
