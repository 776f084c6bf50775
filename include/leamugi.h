/* leamugi: CO-RE relocation of one function's eBPF instructions, by a library whose every function is proved.
 *
 * Link with libleamugi.a, which needs memcpy, memmove and memset and nothing else. In this header: the numbers, the structs, the
 * library's own five calls, and small functions over the structs, which a loader calls.
 *
 *     struct leamugi_btf local = leamugi_btf_of(local_bytes, local_len, local_table, local_entries);
 *     struct leamugi_btf target = leamugi_btf_of(target_bytes, target_len, target_table, target_entries);
 *     struct leamugi_function function = { insns, insns_len, section, records, records_len };
 *     struct leamugi_said said;
 *
 *     if (leamugi_btf_read(&local) == LEAMUGI_DONE && leamugi_btf_read(&target) == LEAMUGI_DONE)
 *         answer = leamugi_relocate(&local, &target, &function, &said);
 *
 * Every call answers for any bytes, any table and any numbers, and asks nothing beyond this: a pointer and the length behind it
 * describe memory that may be read (where not const: written), and what is not const overlaps nothing else that is handed in. A
 * pointer of length 0 is not looked at, but must not be null.
 *
 * Nothing is allocated, and nothing is kept between calls: calls on different buffers may run at once. A call takes less than 48 KiB
 * of stack, and tests/c/stack.c measures it: a relocation takes up to 38 KiB (of which 32 unnamed levels, the most that a search goes
 * through, are 27), reading takes 5.
 *
 * Every call ends, but the time of a relocation has no small bound: a search goes through unnamed structs and unions within one
 * another, up to 32 levels, and the work can double with each. Who takes targets from strangers bounds the time.
 *
 * docs/SCOPE.md has the rules; section 3 the numbers, and what a refusal leaves in the instructions and tables.
 */
#ifndef LEAMUGI_H
#define LEAMUGI_H

#include <stddef.h>
#include <stdint.h>

#define LEAMUGI_VERSION_MAJOR 0
#define LEAMUGI_VERSION_MINOR 1
#define LEAMUGI_VERSION_PATCH 0
/* One number that grows with the version, for #if. */
#define LEAMUGI_VERSION (LEAMUGI_VERSION_MAJOR * 1000000 + LEAMUGI_VERSION_MINOR * 1000 + LEAMUGI_VERSION_PATCH)

#ifdef __cplusplus
extern "C" {
#endif

/* What a call answers. */
enum leamugi_answer {
	LEAMUGI_DONE = 0,
	LEAMUGI_BAD_BTF = 1,
	LEAMUGI_OVER_LIMIT = 2,      /* more than 16,777,216 bytes or 1,048,575 types */
	LEAMUGI_TABLE_TOO_SHORT = 3,
	LEAMUGI_KIND_TOO_BIG = 4,    /* record kind above 11 */
	LEAMUGI_NOT_IN_FUNCTION = 5, /* the record's instruction */
	LEAMUGI_NO_SUCCESSOR = 6,    /* of an instruction that needs one */
	LEAMUGI_BAD_ACCESS = 7,      /* access string invalid */
	LEAMUGI_INDEX_TOO_BIG = 8,   /* in the access string */
	LEAMUGI_WRONG_KIND = 9,      /* record kind not valid for the type */
	LEAMUGI_CONFLICT = 10,       /* conflicting candidates */
	LEAMUGI_MAXIMUM_NESTING = 11, /* the access has 64 parts in a candidate, and goes on */
	LEAMUGI_BAD_INSTRUCTION = 12,
	LEAMUGI_NO_MATCH = 13,       /* for a type's id or size */
	LEAMUGI_UNRESOLVED = 14,     /* id, string, size or chain */
	LEAMUGI_TOO_MANY_PARTS = 15, /* access string of more than 64 parts */
	LEAMUGI_BITS_TOO_BIG = 16,   /* a bit offset reaches 2^32 */
	LEAMUGI_TOO_DEEP = 17,       /* nested deeper than is carried */
	LEAMUGI_MISSHAPEN = 18       /* instructions or section offset no multiple of 8, records no multiple of 16, over 4,096 instructions */
};

/* The reasons of LEAMUGI_BAD_INSTRUCTION. */
enum leamugi_reason {
	LEAMUGI_REASON_SOURCE_REGISTER = 1, /* an arithmetic instruction whose source register is not r0 */
	LEAMUGI_REASON_OFFSET_TOO_BIG = 2,  /* an offset above 32,767 */
	LEAMUGI_REASON_TYPES_DIFFER = 3,    /* a load's size would change between types neither pointers nor unsigned integers */
	LEAMUGI_REASON_TARGET_SIZE = 4,     /* the target's size is not 1, 2, 4 or 8 */
	LEAMUGI_REASON_CLASS = 5,           /* a class that takes no value */
	LEAMUGI_REASON_NO_TYPE = 6          /* a load's size would change and one side has no type to compare */
};

/* What a record asks for: the fourth of its numbers. */
enum leamugi_record_kind {
	LEAMUGI_FIELD_OFFSET = 0,
	LEAMUGI_FIELD_SIZE = 1,
	LEAMUGI_FIELD_EXISTS = 2,
	LEAMUGI_FIELD_SIGNED = 3,
	LEAMUGI_FIELD_LEFT_SHIFT = 4,
	LEAMUGI_FIELD_RIGHT_SHIFT = 5,
	LEAMUGI_LOCAL_TYPE_ID = 6,
	LEAMUGI_TARGET_TYPE_ID = 7,
	LEAMUGI_TYPE_EXISTS = 8,
	LEAMUGI_TYPE_SIZE = 9,
	LEAMUGI_VARIANT_EXISTS = 10,
	LEAMUGI_VARIANT_VALUE = 11
};

/* A BTF: its bytes, a table that is lent for where its types begin, and the numbers that reading it gives: where the types begin and
 * how many bytes they have, the same of the strings, the last type id. */
struct leamugi_btf {
	const uint8_t *bytes;
	size_t bytes_len;
	uint32_t *table;
	size_t table_len;
	uint64_t read[5];
};

/* What stands at a type id; 0 for what a kind has not. Names end with a zero and stand in the BTF's own bytes. */
struct leamugi_type_info {
	uint32_t kind; /* the kernel's BTF_KIND number; 0 for void and for an id past the last */
	const char *name;
	size_t name_len;
	uint32_t size;
	uint32_t referred; /* the type referred to */
	uint32_t entries;  /* members, variants, parameters or section variables */
};

/* A member, variant, parameter or section variable of a type. */
struct leamugi_entry_info {
	uint32_t type; /* 0 for a variant */
	const char *name;
	size_t name_len;
	uint32_t low;  /* a member's offset in bits (where the type's kind flag is set, in the lower 24 bits, below a bitfield's
			* size), a variant's value's low half, or a variable's offset */
	uint32_t high; /* a variant's value's high half, or a variable's size */
};

/* One function and its records. */
struct leamugi_function {
	uint8_t *insns; /* 8 bytes each, at most 4,096 */
	size_t insns_len;
	uint64_t section;       /* where the function begins in its section, in bytes */
	const uint8_t *records; /* 16 bytes each: four little-endian numbers of 32 bits, as in .BTF.ext: instruction offset in the
				 * section, type id in the local BTF, offset of the access string in its strings, kind */
	size_t records_len;
};

/* What stands beside an answer. */
struct leamugi_said {
	uint64_t applied; /* how many records were applied; what they have patched stays */
	/* 4: the kind; 6: the successor's index; 8: index and count; 10: the first conflicting id and how many; 11: the candidate's
	 * id; 12: the reason; 5, 7, 9, 13 to 17: the record's number; else 0 */
	uint64_t values[2];
	uint64_t report_len; /* how many bytes the report takes, where one was asked for */
};

/* ---- The library's own calls. `said` is lent for the numbers beside the answer; what does not fit into it is not written. */

/* Reads bytes as a BTF.
 *   0  accepted: said[0..5] = the five numbers of struct leamugi_btf, which the other calls take as `read`; table[0] = 0 and
 *      table[i] = where type i begins
 *   1  bad BTF: said[0] = the id of the first fault, 0 for the header or the strings
 *   2  over a limit
 *   3  the table is too short: said[0] = the entries that it needs
 * A refused read leaves the table as it was. */
uint32_t leamugi_read(const uint8_t *btf, size_t btf_len, uint32_t *table, size_t table_len, uint64_t *said, size_t said_len);

/* What stands at a type id of a BTF that was read. Answers the kind; said[0..5] = the name's offset in the strings and its length, the
 * size, the type referred to, how many entries. */
uint32_t leamugi_type(const uint8_t *btf, size_t btf_len, const uint32_t *table, size_t table_len, const uint64_t *read,
		      size_t read_len, uint32_t id, uint64_t *said, size_t said_len);

/* The k-th entry of a type. Answers its type id; said[0..4] = its name's offset in the strings and its length, and its two words. */
uint32_t leamugi_entry(const uint8_t *btf, size_t btf_len, const uint32_t *table, size_t table_len, const uint64_t *read,
		       size_t read_len, uint32_t id, uint32_t k, uint64_t *said, size_t said_len);

/* Applies the records to the function's instructions, in order up to the first refusal, between two BTFs that were read before.
 * said[0] = how many records were applied; said[1], said[2] = what the answer returns. A refused record leaves every instruction byte
 * as it was, except after 6, and after 12 with reason 3, 4 or 6. */
uint32_t leamugi_relocate_read(const uint8_t *local, size_t local_len, const uint32_t *ltable, size_t ltable_len,
			       const uint64_t *lread, size_t lread_len, const uint8_t *target, size_t target_len,
			       const uint32_t *ttable, size_t ttable_len, const uint64_t *tread, size_t tread_len,
			       uint8_t *insns, size_t insns_len, uint64_t section, const uint8_t *records,
			       size_t records_len, uint64_t *said, size_t said_len);

/* The same, and the report of section 9 into `out`. said[3] = the bytes that the report takes; where `out` is shorter, nothing is
 * written to it, and the instructions are patched all the same. */
uint32_t leamugi_relocate_reported(const uint8_t *local, size_t local_len, const uint32_t *ltable, size_t ltable_len,
				   const uint64_t *lread, size_t lread_len, const uint8_t *target, size_t target_len,
				   const uint32_t *ttable, size_t ttable_len, const uint64_t *tread, size_t tread_len,
				   uint8_t *insns, size_t insns_len, uint64_t section, const uint8_t *records,
				   size_t records_len, uint64_t *said, size_t said_len, uint8_t *out, size_t out_len);

/* ---- The same calls over the structs. */

/* How many entries are enough for the table of any BTF of so many bytes. */
static inline size_t leamugi_table_len(size_t bytes_len)
{
	return bytes_len / 12 + 1;
}

/* A BTF that is not read yet. */
static inline struct leamugi_btf leamugi_btf_of(const uint8_t *bytes, size_t bytes_len, uint32_t *table, size_t table_len)
{
	struct leamugi_btf btf = { bytes, bytes_len, table, table_len, { 0, 0, 0, 0, 0 } };

	return btf;
}

/* Reads it: LEAMUGI_DONE, LEAMUGI_BAD_BTF with the id of the first fault in read[0], LEAMUGI_OVER_LIMIT, or LEAMUGI_TABLE_TOO_SHORT
 * with the entries that the table needs in read[0]. The calls below take a BTF that was read. */
static inline enum leamugi_answer leamugi_btf_read(struct leamugi_btf *btf)
{
	return (enum leamugi_answer)leamugi_read(btf->bytes, btf->bytes_len, btf->table, btf->table_len, btf->read, 5);
}

/* The last type id. */
static inline uint32_t leamugi_last_id(const struct leamugi_btf *btf)
{
	return (uint32_t)btf->read[4];
}

/* The text at an offset of the strings. */
static inline const char *leamugi_string(const struct leamugi_btf *btf, uint64_t offset)
{
	return (const char *)btf->bytes + btf->read[2] + offset;
}

static inline struct leamugi_type_info leamugi_type_at(const struct leamugi_btf *btf, uint32_t id)
{
	uint64_t said[5];
	uint32_t kind = leamugi_type(btf->bytes, btf->bytes_len, btf->table, btf->table_len, btf->read, 5, id, said, 5);
	struct leamugi_type_info type = { kind, leamugi_string(btf, said[0]), (size_t)said[1], (uint32_t)said[2], (uint32_t)said[3],
					  (uint32_t)said[4] };

	return type;
}

/* The kind flag: a FWD is of a union; members have a bitfield's size in their offset; an enum's values are signed. */
static inline int leamugi_kind_flag(const struct leamugi_btf *btf, uint32_t id)
{
	return id > 0 && id <= btf->read[4] && btf->bytes[btf->table[id] + 7] >> 7;
}

static inline struct leamugi_entry_info leamugi_entry_at(const struct leamugi_btf *btf, uint32_t id, uint32_t k)
{
	uint64_t said[5];
	uint32_t type = leamugi_entry(btf->bytes, btf->bytes_len, btf->table, btf->table_len, btf->read, 5, id, k, said, 5);
	struct leamugi_entry_info entry = { type, leamugi_string(btf, said[0]), (size_t)said[1], (uint32_t)said[2], (uint32_t)said[3] };

	return entry;
}

/* Applies the function's records, and writes their report into `out`. */
static inline enum leamugi_answer leamugi_relocate_report(const struct leamugi_btf *local, const struct leamugi_btf *target,
							   const struct leamugi_function *function, struct leamugi_said *said,
							   uint8_t *out, size_t out_len)
{
	uint64_t numbers[5];
	uint32_t answer = leamugi_relocate_reported(
		local->bytes, local->bytes_len, local->table, local->table_len, local->read, 5, target->bytes, target->bytes_len,
		target->table, target->table_len, target->read, 5, function->insns, function->insns_len, function->section,
		function->records, function->records_len, numbers, 5, out, out_len);

	said->applied = numbers[0];
	said->values[0] = numbers[1];
	said->values[1] = numbers[2];
	said->report_len = numbers[3];
	return (enum leamugi_answer)answer;
}

/* Applies the function's records. */
static inline enum leamugi_answer leamugi_relocate(const struct leamugi_btf *local, const struct leamugi_btf *target,
						    const struct leamugi_function *function, struct leamugi_said *said)
{
	uint64_t numbers[5];
	uint32_t answer = leamugi_relocate_read(
		local->bytes, local->bytes_len, local->table, local->table_len, local->read, 5, target->bytes, target->bytes_len,
		target->table, target->table_len, target->read, 5, function->insns, function->insns_len, function->section,
		function->records, function->records_len, numbers, 5);

	said->applied = numbers[0];
	said->values[0] = numbers[1];
	said->values[1] = numbers[2];
	said->report_len = 0;
	return (enum leamugi_answer)answer;
}

#ifdef __cplusplus
}
#endif

#endif
