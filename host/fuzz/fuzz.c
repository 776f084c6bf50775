/* The static library's five calls on any bytes, for libFuzzer. Each buffer lies against a page that faults when touched; beside
 * that, what include/leamugi.h says of a call is checked where it is cheap.
 *
 * An input is a header and bytes; what it lacks is zeros.
 *
 *    0   the call: 0 read, 1 type, 2 entry, 3 relocation, with the report and without
 *    1   the local BTF's `how`: by default table and numbers are those of a reading, with what is given xored over them
 *    2   entries more (or less, if negative) than the reading's table needs
 *    3   how many numbers of the reading are lent, modulo 7
 *    4   the same three bytes for the target BTF
 *    7   entries of `said`, modulo 7
 *    8   bytes of `out`, in 2 bytes
 *   10   zeros behind the bytes of local BTF, target BTF, instructions, records: a number up to 127, else a power of two; where
 *        `how` has REPEATED, so many times the BTF's types come over, and no zeros
 *   14   bytes of local BTF, target BTF, instructions, records, local table, local numbers, target table, target numbers: in 2
 *        bytes each; they are taken in this order from what follows, as far as it goes
 *   30   the section offset, in 8 bytes; its halves are the id and the k of type and entry
 *   38   the bytes
 */
#include <setjmp.h>
#include <signal.h>
#include <stdio.h>
#include <stdlib.h>
#include <string.h>
#include <sys/time.h>
#include <time.h>

#include "fuzz.h"

#define HEADER 38
#define PARTS 8
#define BTF_HEADER 24

/* Bits of `how`. */
enum {
	GIVEN_TABLE = 1,   /* the table is the words given */
	GIVEN_NUMBERS = 2, /* the numbers are those given */
	ANY_LAST = 4,      /* so is the last id; else it is small, since a record looks at each id */
	FROM_END = 8,      /* a table's words count back from the end of the bytes */
	REPEATED = 16,     /* the BTF's types come many times over, each time with the ids of the first */
};
#define FEW_IDS 1024

int LLVMFuzzerInitialize(int *argc, char ***argv);
int LLVMFuzzerTestOneInput(const uint8_t *data, size_t size);

struct memory memory[MEMORIES] = {
	[LOCAL] = { .name = "local", .width = 1, .room = BTF_ROOM },
	[LTABLE] = { .name = "ltable", .width = 4, .room = 4 * TABLE_ROOM },
	[LREAD] = { .name = "lread", .width = 8, .room = 8 * SAID },
	[TARGET] = { .name = "target", .width = 1, .room = BTF_ROOM },
	[TTABLE] = { .name = "ttable", .width = 4, .room = 4 * TABLE_ROOM },
	[TREAD] = { .name = "tread", .width = 8, .room = 8 * SAID },
	[INSNS] = { .name = "insns", .width = 1, .room = LIST_ROOM, .writable = true },
	[RECORDS] = { .name = "records", .width = 1, .room = LIST_ROOM },
	[TABLE] = { .name = "table", .width = 4, .room = 4 * TABLE_ROOM, .writable = true },
	[SAYS] = { .name = "said", .width = 8, .room = 8 * SAID, .writable = true },
	[OUT] = { .name = "out", .width = 1, .room = OUT_ROOM, .writable = true },
};

void breach(const char *file, int line, const char *what)
{
	fprintf(stderr, "%s:%d: not so: %s\n", file, line, what);
	abort();
}

/* Every call ends, but there are inputs that nobody waits for (2^32 ids, unnamed members within unnamed members). Such a call is
 * left by a timer, and its input counts as abandoned. */

#define TICK 10000 /* microseconds of processor time */

int patience = 2; /* ticks */
static volatile sig_atomic_t ticks_left;
static sigjmp_buf abandon;
static unsigned long inputs, abandoned;

static void tick(int number)
{
	(void)number;
	if (ticks_left > 0 && --ticks_left == 0)
		siglongjmp(abandon, 1);
}

static void start_timer(void)
{
	struct sigaction action = { .sa_handler = tick, .sa_flags = SA_RESTART | SA_NODEFER };
	struct itimerval timer = { { 0, TICK }, { 0, TICK } };

	if (sigaction(SIGVTALRM, &action, NULL) != 0 || setitimer(ITIMER_VIRTUAL, &timer, NULL) != 0) {
		perror("setitimer");
		exit(2);
	}
}

static void print_counts(void)
{
	fprintf(stderr, "fuzz: %lu inputs, %lu abandoned, %ld s of processor time\n", inputs, abandoned,
		(long)(clock() / CLOCKS_PER_SEC));
}

/* The memory of which a byte is changed after every other call, to show that the checks see it. */
static const char *spoiled;

static void spoil(void)
{
	static unsigned calls;

	if (!spoiled || calls++ % 2 == 0)
		return;
	for (int m = 0; m < MEMORIES; m++)
		if (strcmp(spoiled, memory[m].name) == 0 && memory[m].used > 0)
			memory[m].own[memory[m].at] ^= 1;
}

void begin(void)
{
	ticks_left = patience;
}

uint32_t ended(uint32_t number)
{
	ticks_left = 0;
	spoil();
	return number;
}

uint64_t number_at(const uint8_t *at, size_t width)
{
	uint64_t number = 0;

	while (width-- > 0)
		number = number << 8 | at[width];
	return number;
}

size_t least(size_t a, size_t b)
{
	return a < b ? a : b;
}

/* The last id by the numbers that are lent. */
uint32_t last_of(const struct btf *b)
{
	return b->numbers > 4 ? (uint32_t)b->read[4] : 0;
}

struct lent_btf lend_btf(const struct btf *b, enum side side)
{
	return (struct lent_btf){
		lend(&memory[b->memory], side, b->bytes.at, b->bytes.given, b->bytes.len),
		lend(&memory[b->memory + 1], side, b->table, 4 * b->entries, b->entries),
		lend(&memory[b->memory + 2], side, b->read, 8 * b->numbers, b->numbers),
	};
}

/* The table as the input wants it. */
static void alter_table(struct btf *b, uint8_t how, int8_t more, struct bytes words)
{
	size_t given = words.given / 4;
	size_t entries = b->entries + (size_t)(more > 0 ? more : 0);

	if (how & GIVEN_TABLE) {
		b->entries = 0;
		entries = given;
	}
	memset(b->table + b->entries, 0, 4 * (entries - b->entries));
	for (size_t i = 0; i < least(given, entries); i++) {
		uint32_t word = (uint32_t)number_at(words.at + 4 * i, 4);

		b->table[i] ^= how & FROM_END ? (uint32_t)b->bytes.len - word : word;
	}
	if (more < 0)
		entries -= least(entries, (size_t)-more);
	b->own = b->own && !(how & GIVEN_TABLE) && more >= 0 && given == 0;
	b->entries = entries;
}

/* The numbers of the reading as the input wants them. */
static void alter_numbers(struct btf *b, uint8_t how, uint8_t lent, struct bytes numbers)
{
	size_t given = numbers.given / 8;

	if (how & GIVEN_NUMBERS)
		memset(b->read, 0, sizeof b->read);
	for (size_t i = 0; i < least(given, SAID); i++)
		b->read[i] ^= number_at(numbers.at + 8 * i, 8);
	if (!(how & ANY_LAST) && b->read[4] > MAX_TYPES)
		b->read[4] %= FEW_IDS;
	b->numbers = lent % (SAID + 1);
	b->own = b->own && !(how & GIVEN_NUMBERS) && given == 0 && b->numbers >= 5;
}

static void put_number(uint8_t *at, size_t number)
{
	for (int i = 0; i < 4; i++)
		at[i] = (uint8_t)(number >> 8 * i);
}

/* One BTF that a few bytes can tell and that is long all the same: header, the types so many times, the strings. Left as it is
 * where its sections do not lie inside the bytes. */
static void repeat_types(struct btf *b, size_t times)
{
	const uint8_t *at = b->bytes.at;
	size_t given = b->bytes.given, head, types, size, strings, length, end;

	if (given < BTF_HEADER || times == 0)
		return;
	head = number_at(at + 4, 4);
	types = head + number_at(at + 8, 4);
	size = number_at(at + 12, 4);
	strings = head + number_at(at + 16, 4);
	length = number_at(at + 20, 4);
	if (head < BTF_HEADER || size == 0 || types + size > given || strings + length > given)
		return;
	times = least(times, MAX_BYTES / size + 1); /* over the limit once is enough */
	end = head + times * size;
	memcpy(b->whole, at, head);
	put_number(b->whole + 8, 0);
	put_number(b->whole + 12, times * size);
	put_number(b->whole + 16, times * size);
	for (size_t i = 0; i < times; i++)
		memcpy(b->whole + head + i * size, at + types, size);
	memcpy(b->whole + end, at + strings, length);
	b->bytes = (struct bytes){ .at = b->whole, .given = end + length, .len = end + length };
	b->times = times;
	b->once = size;
}

static size_t zeros(uint8_t more)
{
	return more < 128 ? more : (size_t)1 << more % 24;
}

static struct bytes take(struct bytes *rest, size_t asked, size_t more, size_t room)
{
	struct bytes taken = { .at = rest->at, .given = least(asked, rest->given) };

	taken.len = least(taken.given + more, room);
	rest->at += taken.given;
	rest->given -= taken.given;
	return taken;
}

/* The zeros behind a part. */
static size_t behind(const uint8_t *header, size_t part)
{
	if (part >= 4 || (part < 2 && header[1 + 3 * part] & REPEATED))
		return 0;
	return zeros(header[10 + part]);
}

/* The input's parts in their order, then tables and numbers. */
static void split(struct input *in, const uint8_t *header, struct bytes rest)
{
	static const size_t rooms[PARTS] = { BTF_ROOM, BTF_ROOM, LIST_ROOM, LIST_ROOM, 65535, 65535, 65535, 65535 };
	static struct btf local = { .memory = LOCAL }, target = { .memory = TARGET };
	struct btf *btfs[] = { &local, &target };
	struct bytes parts[PARTS];

	for (size_t i = 0; i < PARTS; i++)
		parts[i] = take(&rest, number_at(header + 14 + 2 * i, 2), behind(header, i), rooms[i]);
	for (size_t i = 0; i < 2; i++) {
		const uint8_t *how = header + 1 + 3 * i;

		btfs[i]->bytes = parts[i];
		btfs[i]->times = 1;
		if (how[0] & REPEATED)
			repeat_types(btfs[i], zeros(header[10 + i]));
		read_own(btfs[i]);
		alter_table(btfs[i], how[0], (int8_t)how[1], parts[4 + 2 * i]);
		alter_numbers(btfs[i], how[0], how[2], parts[5 + 2 * i]);
	}
	*in = (struct input){ &local, &target, parts[2], parts[3], number_at(header + 30, 8), header[7] % (SAID + 1),
			      number_at(header + 8, 2) };
}

int LLVMFuzzerInitialize(int *argc, char ***argv)
{
	(void)argc;
	(void)argv;
	lent_too_long = getenv("LEAMUGI_FUZZ_TOO_LONG");
	spoiled = getenv("LEAMUGI_FUZZ_SPOILED");
	for (int m = 0; m < MEMORIES; m++)
		reserve(&memory[m]);
	start_timer();
	atexit(print_counts);
	return 0;
}

int LLVMFuzzerTestOneInput(const uint8_t *data, size_t size)
{
	uint8_t header[HEADER] = { 0 };
	size_t head = least(size, HEADER);
	struct input in;

	inputs++;
	if (sigsetjmp(abandon, 0) != 0) {
		abandoned++;
		return -1; /* libFuzzer does not keep it */
	}
	if (head > 0)
		memcpy(header, data, head);
	split(&in, header, (struct bytes){ .at = data + head, .given = size - head });
	switch (header[0] % 4) {
	case 0:
		try_read(&in);
		break;
	case 1:
		try_look(&in, false);
		break;
	case 2:
		try_look(&in, true);
		break;
	default:
		try_relocate(&in);
	}
	return 0;
}
