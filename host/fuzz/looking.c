/* leamugi_type and leamugi_entry on any bytes, table, numbers and ids. */
#include <string.h>

#include "fuzz.h"

#define LAST_KIND 19 /* BTF_KIND_ENUM64 */

/* A type, or its k-th entry. */
static uint32_t look_once(const struct btf *b, enum side side, uint32_t id, const uint32_t *k, uint64_t *said, size_t room)
{
	struct lent_btf btf = lend_btf(b, side);
	struct lent says;
	uint64_t *numbers;
	uint32_t number;

	memset(said, UNTOUCHED, 8 * SAID);
	says = lend(&memory[SAYS], side, said, 8 * room, room);
	numbers = (uint64_t *)says.at;
	begin();
	number = ended(k ? leamugi_entry(WORDS(btf), id, *k, numbers, says.len) : leamugi_type(WORDS(btf), id, numbers, says.len));
	memcpy(said, held(&memory[SAYS]), 8 * room);
	return number;
}

/* A name lies in the strings of a BTF that was read, up to a zero. */
static void check_name(const struct btf *b, uint64_t offset, uint64_t length)
{
	uint64_t end = b->read[2] + offset + length;

	MUST(offset + length < b->read[3]);
	MUST(end >= b->bytes.given || b->bytes.at[end] == 0);
}

static void check_type(const struct btf *b, uint32_t id, uint32_t kind, const uint64_t *said)
{
	bool there = id > 0 && id <= last_of(b) && id < b->entries;

	MUST(kind < 32 && said[4] <= 65535);
	MUST(there || kind == 0);
	if (b->own) {
		MUST(kind <= LAST_KIND && (kind > 0) == there);
		MUST(said[3] <= last_of(b));
		check_name(b, said[0], said[1]);
	}
}

static void check_entry(const struct btf *b, uint32_t id, uint32_t k, uint32_t typ, const uint64_t *said)
{
	uint64_t of[SAID];

	look_once(b, AT_BEGINNING, id, NULL, of, SAID);
	if (k >= of[4])
		MUST(typ == 0 && said[0] == 0 && said[2] == 0 && said[3] == 0);
	if (b->own) {
		MUST(typ <= last_of(b));
		check_name(b, said[0], said[1]);
	}
}

void try_look(const struct input *in, bool entry)
{
	uint32_t id = (uint32_t)in->section, k = (uint32_t)(in->section >> 32);
	uint64_t said[SAID], full[SAID];
	uint32_t number = look_once(in->local, AT_BEGINNING, id, entry ? &k : NULL, full, SAID);

	MUST(look_once(in->local, AT_END, id, entry ? &k : NULL, said, in->said) == number);
	MUST(memcmp(said, full, 8 * in->said) == 0);
	MUST(full[5] == UNTOUCHED_NUMBER);
	if (entry)
		check_entry(in->local, id, k, number, full);
	else
		check_type(in->local, id, number, full);
}
