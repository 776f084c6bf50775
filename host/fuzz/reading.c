/* leamugi_read on any bytes and any table. */
#include <string.h>

#include "fuzz.h"

/* One reading; what it leaves in the table and says is brought back. */
static uint32_t read_once(const struct btf *b, enum side side, uint32_t *table, size_t entries, uint64_t *said, size_t room)
{
	struct lent bytes = lend(&memory[b->memory], side, b->bytes.at, b->bytes.given, b->bytes.len);
	struct lent words = lend(&memory[TABLE], side, table, 4 * entries, entries);
	struct lent says = lend(&memory[SAYS], side, said, 8 * room, room);
	uint32_t number;

	begin();
	number = ended(leamugi_read(bytes.at, bytes.len, (uint32_t *)words.at, words.len, (uint64_t *)says.at, says.len));
	memcpy(table, held(&memory[TABLE]), 4 * entries);
	memcpy(said, held(&memory[SAYS]), 8 * room);
	return number;
}

void read_own(struct btf *b)
{
	uint32_t number;

	memset(b->read, 0, sizeof b->read);
	b->entries = 0;
	number = read_once(b, AT_END, b->table, 0, b->read, 5);
	if (number == 3) {
		b->entries = b->read[0];
		MUST(b->entries <= MAX_TYPES + 1);
		number = read_once(b, AT_END, b->table, b->entries, b->read, 5);
		MUST(number == 0);
	} else {
		memset(b->read, 0, sizeof b->read);
	}
	b->own = number == 0;
}

/* Where the types come many times over, each time's entries are those of the first, further on; unless a type lies across the
 * end of the first time. */
static void check_times(const struct btf *b, const uint32_t *table, uint64_t types, uint64_t last)
{
	uint64_t first = 0, end = types + b->once;

	while (first < last && table[first + 1] < end)
		first++;
	if (first == last || table[first + 1] != end)
		return;
	MUST(last == b->times * first);
	for (size_t i = first + 1; i <= last; i++)
		MUST(table[i] == table[i - first] + b->once);
}

static void check_accepted(const struct btf *b, const uint32_t *before, const uint32_t *after, size_t entries,
			   const uint64_t *said)
{
	uint64_t types = said[0], end = said[0] + said[1], last = said[4];

	MUST(end <= b->bytes.len && said[2] + said[3] <= b->bytes.len);
	MUST(last <= MAX_TYPES && last < entries);
	MUST(after[0] == 0);
	for (size_t i = 1; i <= last; i++) {
		MUST(after[i] >= (i == 1 ? types : after[i - 1] + 12u));
		MUST(after[i] + (uint64_t)12 <= end);
	}
	MUST(last == 0 || after[1] == types);
	MUST(memcmp(after + last + 1, before + last + 1, 4 * (entries - last - 1)) == 0);
	if (b->times > 1)
		check_times(b, after, types, last);
}

static void check_read(const struct btf *b, const uint32_t *before, const uint32_t *after, size_t entries, uint32_t number,
		       const uint64_t *said)
{
	MUST(number <= 3);
	MUST(number == 2 || b->bytes.len <= MAX_BYTES);
	MUST(said[5] == UNTOUCHED_NUMBER);
	if (number == 0) {
		check_accepted(b, before, after, entries, said);
		return;
	}
	MUST(memcmp(after, before, 4 * entries) == 0);
	MUST(number != 1 || said[0] <= MAX_TYPES);
	MUST(number != 3 || (said[0] > entries && said[0] <= MAX_TYPES + 1));
}

void try_read(const struct input *in)
{
	static uint32_t before[TABLE_ROOM], first[TABLE_ROOM], second[TABLE_ROOM];
	const struct btf *b = in->local;
	size_t entries = b->entries;
	uint64_t said[SAID], full[SAID];
	uint32_t number;

	/* no entry is yet as the reading would leave it */
	for (size_t i = 0; i < entries; i++)
		before[i] = first[i] = second[i] = ~b->table[i];
	memset(said, UNTOUCHED, sizeof said);
	memset(full, UNTOUCHED, sizeof full);
	number = read_once(b, AT_BEGINNING, first, entries, full, SAID);
	check_read(b, before, first, entries, number, full);
	MUST(read_once(b, AT_END, second, entries, said, in->said) == number);
	MUST(memcmp(first, second, 4 * entries) == 0);
	MUST(memcmp(said, full, 8 * in->said) == 0);
}
