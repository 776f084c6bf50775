/* leamugi_relocate_read and leamugi_relocate_reported on anything. */
#include <stdio.h>
#include <string.h>

#include "fuzz.h"

#define MAX_KIND 11

/* What a call answered and left. */
struct result {
	uint32_t number;
	uint64_t said[SAID];
	uint8_t insns[LIST_ROOM];
	uint8_t out[OUT_ROOM];
};

struct ask {
	enum side side;
	size_t records; /* bytes of them */
	size_t said;
	bool reported;
	size_t out;
};

static void relocate_once(const struct input *in, struct ask ask, struct result *r)
{
	struct lent_btf local = lend_btf(in->local, ask.side), target = lend_btf(in->target, ask.side);
	struct lent insns = lend(&memory[INSNS], ask.side, in->insns.at, in->insns.given, in->insns.len);
	struct lent records =
		lend(&memory[RECORDS], ask.side, in->records.at, least(in->records.given, ask.records), ask.records);
	struct lent says, out;
	uint64_t *numbers;

	memset(r->said, UNTOUCHED, sizeof r->said);
	memset(r->out, UNTOUCHED, ask.out);
	says = lend(&memory[SAYS], ask.side, r->said, 8 * ask.said, ask.said);
	out = lend(&memory[OUT], ask.side, r->out, ask.out, ask.out);
	numbers = (uint64_t *)says.at;
	begin();
	if (ask.reported)
		r->number = leamugi_relocate_reported(WORDS(local), WORDS(target), insns.at, insns.len, in->section, records.at,
						      records.len, numbers, says.len, out.at, out.len);
	else
		r->number = leamugi_relocate_read(WORDS(local), WORDS(target), insns.at, insns.len, in->section, records.at,
						  records.len, numbers, says.len);
	ended(r->number);
	memcpy(r->said, held(&memory[SAYS]), 8 * ask.said);
	memcpy(r->insns, held(&memory[INSNS]), in->insns.len);
	memcpy(r->out, held(&memory[OUT]), ask.out);
}

static bool shaped(const struct input *in)
{
	return in->insns.len % 8 == 0 && in->section % 8 == 0 && in->records.len % RECORD == 0 && in->insns.len / 8 <= MAX_INSNS;
}

/* A word of a record; behind the bytes given there are zeros. */
static uint32_t record_word(const struct input *in, uint64_t record, size_t word)
{
	uint8_t bytes[4] = { 0 };
	size_t at = record * RECORD + 4 * word;

	if (at < in->records.given)
		memcpy(bytes, in->records.at + at, least(4, in->records.given - at));
	return (uint32_t)number_at(bytes, 4);
}

/* What is said beside the number of a refused record. */
static void check_refusal(const struct input *in, const struct result *r)
{
	uint64_t at = r->said[0], a = r->said[1], b = r->said[2];

	MUST(at < in->records.len / RECORD);
	switch (r->number) {
	case 4:
		MUST(a == record_word(in, at, 3) && a > MAX_KIND);
		break;
	case 6:
		MUST(a == in->insns.len / 8);
		break;
	case 8:
		MUST(a >= b);
		break;
	case 10:
		MUST(a <= last_of(in->target) && b >= 1);
		break;
	case 11:
		MUST(a <= last_of(in->target));
		break;
	case 12:
		MUST(a >= 1 && a <= 6);
		break;
	default:
		MUST(a == at);
	}
}

static void check_answer(const struct input *in, const struct result *r)
{
	MUST(r->number == 0 || (r->number >= 4 && r->number <= 18));
	MUST((r->number == 18) == !shaped(in));
	MUST(r->said[5] == UNTOUCHED_NUMBER);
	if (r->number == 0)
		MUST(r->said[0] == in->records.len / RECORD);
	else if (r->number == 18)
		MUST(r->said[0] == 0);
	else
		check_refusal(in, r);
}

/* After a refusal the instructions are as the records before it left them; 6, and 12 with reason 3, 4 or 6, may leave the
 * record's own instruction otherwise. */
static void check_left(const struct input *in, const struct result *r)
{
	static struct result before;
	bool touched = r->number == 6 || (r->number == 12 && (r->said[1] == 3 || r->said[1] == 4 || r->said[1] == 6));
	uint64_t own = (record_word(in, r->said[0], 0) - in->section) / 8;
	struct ask ask = { .side = AT_BEGINNING, .records = r->said[0] * RECORD, .said = SAID };

	relocate_once(in, ask, &before);
	MUST(r->number == 18 || (before.number == 0 && before.said[0] == r->said[0]));
	for (size_t i = 0; i < in->insns.len; i++)
		MUST(before.insns[i] == r->insns[i] || (touched && i / 8 == own));
}

/* The report's shape: four lines for each record up to and including the first refused, and that one's number. */
static void check_text(const struct result *r, size_t length)
{
	uint64_t lines = 4 * (r->number == 18 ? 0 : r->said[0] + (r->number != 0));
	char last[64];

	for (size_t i = 0; i < length; i++)
		lines -= r->out[i] == '\n';
	MUST(lines == 0);
	MUST(length == 0 || r->out[length - 1] == '\n');
	if (r->number == 0 || r->number == 18)
		return;
	snprintf(last, sizeof last, "record=%llu\nanswer=%u\ninsn=", (unsigned long long)r->said[0], r->number);
	MUST(memmem(r->out, length, last, strlen(last)) != NULL);
}

static void check_report(const struct result *r, size_t room)
{
	size_t length = r->said[3] <= room ? r->said[3] : 0;

	if (length == r->said[3])
		check_text(r, length);
	for (size_t i = length; i < room; i++)
		MUST(r->out[i] == UNTOUCHED);
}

static void check_same(const struct input *in, const struct result *r, const struct result *full, size_t numbers)
{
	MUST(r->number == full->number);
	MUST(memcmp(r->said, full->said, 8 * numbers) == 0);
	MUST(memcmp(r->insns, full->insns, in->insns.len) == 0);
}

void try_relocate(const struct input *in)
{
	static struct result full, r, told, again;
	struct ask plain = { .side = AT_BEGINNING, .records = in->records.len, .said = SAID };
	struct ask report = { AT_BEGINNING, in->records.len, SAID, true, in->out };

	relocate_once(in, plain, &full);
	check_answer(in, &full);
	if (full.number != 0)
		check_left(in, &full);
	plain.side = AT_END;
	plain.said = in->said;
	relocate_once(in, plain, &r);
	check_same(in, &r, &full, in->said);

	relocate_once(in, report, &told);
	check_same(in, &told, &full, 3);
	MUST(told.said[5] == UNTOUCHED_NUMBER);
	check_report(&told, report.out);
	report.side = AT_END;
	report.said = in->said;
	report.out = least(in->out, told.said[3]);
	relocate_once(in, report, &again);
	check_same(in, &again, &told, in->said);
	MUST(memcmp(again.out, told.out, report.out) == 0);
}
