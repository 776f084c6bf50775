/* Runs the target on the files named on standard input, one a line; the first that faults or breaches is told. */
#include <signal.h>
#include <stdint.h>
#include <stdio.h>
#include <string.h>
#include <unistd.h>

#define LONGEST 65536

int LLVMFuzzerInitialize(int *argc, char ***argv);
int LLVMFuzzerTestOneInput(const uint8_t *data, size_t size);
extern int patience;

static char path[4096];

static void told(int number)
{
	static const char words[] = "replay: finding: ";
	ssize_t written = write(2, words, sizeof words - 1);

	written += write(2, path, strlen(path));
	written += write(2, "\n", 1);
	_exit(written > 0 ? 128 + number : 1);
}

static size_t bytes_of(uint8_t *into)
{
	FILE *f = fopen(path, "rb");
	size_t size;

	if (!f) {
		perror(path);
		_exit(2);
	}
	size = fread(into, 1, LONGEST, f);
	fclose(f);
	return size;
}

int main(int argc, char **argv)
{
	static uint8_t bytes[LONGEST];

	LLVMFuzzerInitialize(&argc, &argv);
	patience = 500; /* an emulator is slow */
	signal(SIGSEGV, told);
	signal(SIGBUS, told);
	signal(SIGABRT, told);
	while (fgets(path, sizeof path, stdin)) {
		path[strcspn(path, "\n")] = 0;
		LLVMFuzzerTestOneInput(bytes, bytes_of(bytes));
	}
	return 0;
}
