/*
 * file.c - files whole, and stores in them
 *
 * A store file is the words of a store, least byte first, on every machine.
 */
#define _DEFAULT_SOURCE			/* POSIX */
#include <errno.h>
#include <fcntl.h>
#include <signal.h>
#include <stdarg.h>
#include <stdlib.h>
#include <string.h>
#include <sys/stat.h>
#include <unistd.h>

#include "tool.h"

#define WORD 4				/* bytes of a word */
#define STORE_MOST (WORD * REAMSTORK_WORDS(REAMSTORK_CELLS_MAX))
#define TOLD_BY 12			/* as many first bytes tell a store from a table */

/* The file that is being written: its name as it was given, behind all links, and the name that it has
 * till it is whole, null where it is written under its own, as a device is. */
static struct { FILE *file; const char *given; char *path, *till_then; } written;

static void remove_half(void)
{
	if (written.till_then)
		unlink(written.till_then);
}

static void interrupted(int signal_number)
{
	remove_half();
	_exit(128 + signal_number);
}

void stop(enum status status, const char *format, ...)
{
	va_list more;

	fflush(stdout);
	va_start(more, format);
	vfprintf(stderr, format, more);
	va_end(more);
	fputc('\n', stderr);
	remove_half();
	exit(status);
}

void *room(size_t count, size_t size)
{
	void *at = calloc(count ? count : 1, size);

	if (!at)
		stop(STATUS_BAD, "reamstork: no memory");
	return at;
}

struct bytes read_file(const char *path, size_t most, const char *kind)
{
	struct bytes bytes = { NULL, 0 };
	struct stat about;
	FILE *file = fopen(path, "rb");

	if (!file || fstat(fileno(file), &about))
		stop(STATUS_BAD, "%s: %s", path, strerror(errno));
	if (S_ISDIR(about.st_mode))
		stop(STATUS_BAD, "%s: a folder, not a file", path);
	if (S_ISREG(about.st_mode) && (uintmax_t)about.st_size > most)
		stop(STATUS_BAD, "%s: %ju bytes, and %s has at most %zu",
		     path, (uintmax_t)about.st_size, kind, most);
	/* a pipe has no size, and a file may grow: so one byte more than there should be is asked for */
	if (S_ISREG(about.st_mode))
		most = (size_t)about.st_size;
	bytes.at = room(most + 1, 1);
	bytes.count = fread(bytes.at, 1, most + 1, file);
	if (ferror(file))
		stop(STATUS_BAD, "%s: %s", path, strerror(errno));
	if (bytes.count > most)
		stop(STATUS_BAD, "%s: too long for %s", path, kind);
	fclose(file);
	return bytes;
}

void keep_apart(const char *from, const char *to)
{
	struct stat one, other;

	if (stat(from, &one) || stat(to, &other) || !S_ISREG(one.st_mode))
		return;
	if (one.st_dev == other.st_dev && one.st_ino == other.st_ino)
		stop(STATUS_BAD, "%s: the file that is read, and not written over", to);
}

FILE *begin_file(const char *path)
{
	struct stat about;
	char *real = realpath(path, NULL);
	int at;

	written.given = path;
	written.path = real ? real : strdup(path);
	if (!written.path)
		stop(STATUS_BAD, "reamstork: no memory");
	if (real && stat(real, &about) == 0 && !S_ISREG(about.st_mode)) {
		written.file = fopen(path, "wb");
	} else {
		size_t most = strlen(written.path) + 32;

		written.till_then = room(most, 1);
		snprintf(written.till_then, most, "%s.%ld.new", written.path, (long)getpid());
		at = open(written.till_then, O_WRONLY | O_CREAT | O_EXCL, 0666);
		if (at < 0) {
			/* the file is not this program's to remove */
			free(written.till_then);
			written.till_then = NULL;
		} else {
			signal(SIGINT, interrupted);
			signal(SIGTERM, interrupted);
			signal(SIGHUP, interrupted);
			written.file = fdopen(at, "wb");
		}
	}
	if (!written.file)
		stop(STATUS_BAD, "%s: %s", path, strerror(errno));
	return written.file;
}

void end_file(void)
{
	bool bad = ferror(written.file) != 0;
	char *gone = written.till_then;

	if (fclose(written.file) || bad || (written.till_then && rename(written.till_then, written.path)))
		stop(STATUS_BAD, "%s: not written: %s", written.given, strerror(errno));
	/* a signal may come at any time, and must not find a name that is given back */
	written.till_then = NULL;
	free(gone);
	free(written.path);
	written.path = NULL;
	written.file = NULL;
}

struct store room_for_store(uint32_t c)
{
	struct store store;

	store.len = REAMSTORK_WORDS((size_t)c);
	store.words = room(store.len, sizeof store.words[0]);
	return store;
}

/* The bytes of a file as words, which have to pass the check. */
static struct store store_in(const char *path, struct bytes bytes)
{
	struct store store;
	uint32_t answer;

	store.len = bytes.count / WORD;
	store.words = room(store.len, sizeof store.words[0]);
	for (size_t i = 0; i < store.len; i++) {
		const uint8_t *at = bytes.at + WORD * i;

		store.words[i] = at[0] | (uint32_t)at[1] << 8 | (uint32_t)at[2] << 16 | (uint32_t)at[3] << 24;
	}
	answer = reamstork_check(store.words, store.len);
	if (answer != REAMSTORK_DONE && reamstork_image_check(store.words, store.len) == REAMSTORK_DONE)
		stop(STATUS_REFUSED, "%s: an image and no store: " ANSWER, path, ANSWER_OF(answer));
	if (answer != REAMSTORK_DONE)
		stop(STATUS_REFUSED, "%s: damaged store: " ANSWER, path, ANSWER_OF(answer));
	if (bytes.count % WORD)
		stop(STATUS_BAD, "%s: damaged store: %zu bytes are no whole words", path, bytes.count);
	free(bytes.at);
	return store;
}

struct store read_store(const char *path)
{
	return store_in(path, read_file(path, STORE_MOST, "a store"));
}

/* Whether some of the first bytes are such as no text has.  In every store the fourth one is 0, since
 * c is at most 65,536, and in no table is there a byte below 32 but tabs and the ends of lines: so
 * each is told for what it is, and erased memory, 255 in each byte, for a store. */
static bool is_words(struct bytes bytes)
{
	for (size_t i = 0; i < bytes.count && i < TOLD_BY; i++) {
		uint8_t byte = bytes.at[i];

		if ((byte < 32 && !memchr("\t\n\r", byte, 3)) || byte == 127 || byte > 0xf4)
			return true;
	}
	return false;
}

struct store read_table_or_store(const char *path)
{
	struct bytes bytes = read_file(path, TEXT_MOST, "a table or a store");

	if (!is_words(bytes))
		return store_of_text(path, bytes, NULL);
	if (bytes.count > STORE_MOST)
		stop(STATUS_BAD, "%s: %zu bytes, and a store has at most %lu", path, bytes.count, STORE_MOST);
	return store_in(path, bytes);
}

void write_store(const char *path, struct store store)
{
	FILE *file = begin_file(path);

	for (size_t i = 0; i < store.len; i++)
		for (int shift = 0; shift < 8 * WORD; shift += 8)
			putc((int)(store.words[i] >> shift & 255), file);
	end_file();
}

uint32_t rules_in(struct store store)
{
	/* there is a rule at each place up to their number, which is halved for: each call runs the check */
	uint32_t there = 0, not_there = REAMSTORK_RULES_MAX + 1;

	while (not_there - there > 1) {
		uint32_t place = (there + not_there) / 2;

		if (reamstork_rule_at(store.words, store.len, place).answer == REAMSTORK_DONE)
			there = place;
		else
			not_there = place;
	}
	return there;
}
