/* Includes the header, links the library, and runs the demo's function through it: what a C loader does. It is C11 and C++. */
#include <stdio.h>
#include <stdlib.h>
#include <string.h>

#include "leamugi.h"

struct bytes {
	uint8_t *at;
	size_t len;
};

static struct bytes file(const char *folder, const char *name)
{
	char path[4096];
	struct bytes b;
	FILE *f;

	snprintf(path, sizeof path, "%s/%s", folder, name);
	f = fopen(path, "rb");
	if (!f) {
		perror(path);
		exit(2);
	}
	fseek(f, 0, SEEK_END);
	b.len = (size_t)ftell(f);
	rewind(f);
	b.at = (uint8_t *)malloc(b.len + 1);
	if (!b.at || fread(b.at, 1, b.len, f) != b.len)
		exit(2);
	fclose(f);
	return b;
}

static struct leamugi_btf read_btf(struct bytes file)
{
	size_t entries = leamugi_table_len(file.len);
	struct leamugi_btf btf = leamugi_btf_of(file.at, file.len, (uint32_t *)calloc(entries, sizeof(uint32_t)), entries);
	enum leamugi_answer answer = leamugi_btf_read(&btf);

	if (answer != LEAMUGI_DONE) {
		printf("refusal %d at %llu\n", answer, (unsigned long long)btf.read[0]);
		exit(1);
	}
	return btf;
}

/* The structs and their members. */
static void print_structs(const struct leamugi_btf *btf)
{
	enum { STRUCT = 4 };

	for (uint32_t id = 1; id <= leamugi_last_id(btf); id++) {
		struct leamugi_type_info type = leamugi_type_at(btf, id);

		if (type.kind != STRUCT)
			continue;
		printf("struct %.*s, %u bytes:", (int)type.name_len, type.name, type.size);
		for (uint32_t k = 0; k < type.entries; k++) {
			struct leamugi_entry_info member = leamugi_entry_at(btf, id, k);

			printf(" %.*s of type %u at bit %u", (int)member.name_len, member.name, member.type, member.low);
		}
		printf("%s\n", leamugi_kind_flag(btf, id) ? ", with bitfields" : "");
	}
}

/* A table that is too short, and the entries that it needs; then bytes that are no BTF, and where that is seen. */
static void print_refused(struct leamugi_btf btf)
{
	enum leamugi_answer answer;

	btf.table_len = 1;
	answer = leamugi_btf_read(&btf);
	printf("refusal %d, %llu entries are needed\n", answer, (unsigned long long)btf.read[0]);
	btf.bytes_len = 6;
	answer = leamugi_btf_read(&btf);
	printf("refusal %d at %llu\n", answer, (unsigned long long)btf.read[0]);
}

int main(int argc, char **argv)
{
	const char *folder = argc > 1 ? argv[1] : "demo";
	struct leamugi_btf local = read_btf(file(folder, "local.btf"));
	struct leamugi_btf target = read_btf(file(folder, "target.btf"));
	struct bytes insns = file(folder, "insns.bin"), again = file(folder, "insns.bin");
	struct bytes records = file(folder, "records.bin");
	struct leamugi_function function = { insns.at, insns.len, 0, records.at, records.len };
	struct leamugi_said said;
	enum leamugi_answer answer;
	static uint8_t report[4096];

	print_structs(&local);
	answer = leamugi_relocate_report(&local, &target, &function, &said, report, sizeof report);
	printf("answer %d, %llu applied\n", answer, (unsigned long long)said.applied);
	fwrite(report, 1, said.report_len <= sizeof report ? said.report_len : 0, stdout);
	for (size_t i = 0; i < insns.len; i++)
		printf("%02x%s", insns.at[i], i % 8 == 7 ? "\n" : " ");
	function.insns = again.at;
	answer = leamugi_relocate(&local, &target, &function, &said);
	printf("answer %d, %llu applied, %s\n", answer, (unsigned long long)said.applied,
	       memcmp(insns.at, again.at, insns.len) == 0 ? "the same without a report" : "otherwise without a report");
	records.at[12] = 12;
	answer = leamugi_relocate(&local, &target, &function, &said);
	printf("answer %d, %llu applied, %llu\n", answer, (unsigned long long)said.applied, (unsigned long long)said.values[0]);
	print_refused(target);
	return 0;
}
