/*
 * text.c - a table as text, read and printed
 *
 * One rule a line.  What can be read is handed to the library as it is: a
 * port of 70000 or a range from 9 to 5 is for the library to refuse.
 */
#include <stdlib.h>
#include <string.h>

#include "tool.h"

#define COLUMNS 8			/* number action destination source protocol dport sport ports */
#define WANTED "number action destination source protocol dport sport [ports]"

static const uint32_t tops[REAMSTORK_FIELDS] = {
	[REAMSTORK_DESTINATION] = REAMSTORK_TOP_ADDRESS,
	[REAMSTORK_SOURCE] = REAMSTORK_TOP_ADDRESS,
	[REAMSTORK_PROTOCOL] = REAMSTORK_TOP_PROTOCOL,
	[REAMSTORK_DESTINATION_PORT] = REAMSTORK_TOP_PORT,
	[REAMSTORK_SOURCE_PORT] = REAMSTORK_TOP_PORT,
	[REAMSTORK_PORTLESS] = REAMSTORK_TOP_PORTLESS,
};

static const struct { const char *name; uint32_t number; } protocols[] = {
	{ "icmp", 1 }, { "tcp", 6 }, { "udp", 17 },
};

#define PROTOCOLS (sizeof protocols / sizeof protocols[0])

/* The last column by the range in field 6. */
static const struct { const char *name; uint32_t low, high; } choices[] = {
	{ "with", 0, 0 }, { "without", 1, 1 }, { "any", 0, 1 },
};

#define CHOICES (sizeof choices / sizeof choices[0])

/* A piece of a line. */
struct word { const char *at; size_t count; };

/* Where a line stands, and a message about it. */
struct place { const char *path; size_t line; };

#define STOP_AT(place, status, format, ...) \
	stop(status, "%s:%zu: " format, (place).path, (place).line, __VA_ARGS__)

struct line { struct place place; reamstork_record rule; };

/* ---- words, for messages and to compare ---- */

#define SHOWN 40			/* as much of a word stands in a message */

/* A word between quotes, with ? for each byte that a terminal should not get. */
static const char *quoted(struct word word)
{
	static char text[SHOWN + 8];
	size_t n = word.count < SHOWN ? word.count : SHOWN;
	char *to = text;

	*to++ = '\'';
	for (size_t i = 0; i < n; i++)
		*to++ = word.at[i] < 32 || word.at[i] > 126 ? '?' : word.at[i];
	strcpy(to, n < word.count ? "...'" : "'");
	return text;
}

static bool is(struct word word, const char *text)
{
	return word.count == strlen(text) && memcmp(word.at, text, word.count) == 0;
}

/* Parts a word at the first such byte; false where there is none. */
static bool part(struct word word, char at, struct word *before, struct word *behind)
{
	const char *found = memchr(word.at, at, word.count);

	if (!found)
		return false;
	*before = (struct word){ word.at, (size_t)(found - word.at) };
	*behind = (struct word){ found + 1, word.count - before->count - 1 };
	return true;
}

/* ---- numbers, addresses, ranges ---- */

bool number_in(const char *text, size_t count, uint32_t *number)
{
	uint64_t sum = 0;

	if (count == 0 || count > 10 || (count > 1 && text[0] == '0'))
		return false;
	for (size_t i = 0; i < count; i++) {
		if (text[i] < '0' || text[i] > '9')
			return false;
		sum = 10 * sum + (uint64_t)(text[i] - '0');
	}
	*number = (uint32_t)sum;
	return sum <= UINT32_MAX;
}

static bool read_number(struct word word, uint32_t *number)
{
	return number_in(word.at, word.count, number);
}

static bool read_address(struct word word, uint32_t *address)
{
	struct word octet, rest = word;
	uint32_t number, sum = 0;

	for (int i = 0; i < 4; i++) {
		octet = rest;
		if (i < 3 && !part(word, '.', &octet, &rest))
			return false;
		word = rest;
		if (!read_number(octet, &number) || number > 255)
			return false;
		sum = sum << 8 | number;
	}
	*address = sum;
	return true;
}

static bool read_protocol(struct word word, uint32_t *protocol)
{
	for (size_t i = 0; i < PROTOCOLS; i++)
		if (is(word, protocols[i].name)) {
			*protocol = protocols[i].number;
			return true;
		}
	return read_number(word, protocol);
}

typedef bool reader(struct word word, uint32_t *value);

/* A column that is any, one value or low-high; one and end read a value that stands alone and one
 * that is an end. */
static bool read_range(struct word word, int field, reader *one, reader *end, reamstork_record *rule)
{
	uint32_t *low = &rule->low[field], *high = &rule->high[field];
	struct word before, behind;

	if (is(word, "any")) {
		*low = 0;
		*high = tops[field];
		return true;
	}
	if (part(word, '-', &before, &behind))
		return end(before, low) && end(behind, high);
	if (!one(word, low))
		return false;
	*high = *low;
	return true;
}

static void read_addresses(struct place place, struct word word, const char *column, int field,
			   reamstork_record *rule)
{
	struct word before, behind;
	uint32_t address, length;
	reamstork_range range;
	bool prefix = part(word, '/', &before, &behind);

	if (prefix ? !read_address(before, &address) || !read_number(behind, &length)
		   : !read_range(word, field, read_address, read_address, rule))
		STOP_AT(place, STATUS_BAD, "%s %s: wanted any, an address, address/length or low-high",
			column, quoted(word));
	if (!prefix)
		return;
	range = reamstork_prefix(address, length);
	if (range.answer != REAMSTORK_DONE)
		STOP_AT(place, STATUS_REFUSED, "%s %s refused: " ANSWER,
			column, quoted(word), ANSWER_OF(range.answer));
	rule->low[field] = range.low;
	rule->high[field] = range.high;
}

static void read_ports(struct place place, struct word word, const char *column, int field,
		       reamstork_record *rule)
{
	if (!read_range(word, field, read_number, read_number, rule))
		STOP_AT(place, STATUS_BAD, "%s %s: wanted any, a port or low-high", column, quoted(word));
}

static bool narrow(const reamstork_record *rule, int field)
{
	return rule->low[field] != 0 || rule->high[field] != tops[field];
}

/* The last column.  Left out it is with where a port range is narrow, since an insert takes no other,
 * and else any. */
static void read_choice(struct place place, const struct word *word, reamstork_record *rule)
{
	bool some_ports = narrow(rule, REAMSTORK_DESTINATION_PORT) ||
			  narrow(rule, REAMSTORK_SOURCE_PORT);
	struct word left_out = { some_ports ? "with" : "any", some_ports ? 4 : 3 };

	if (!word)
		word = &left_out;
	for (size_t i = 0; i < CHOICES; i++)
		if (is(*word, choices[i].name)) {
			rule->low[REAMSTORK_PORTLESS] = choices[i].low;
			rule->high[REAMSTORK_PORTLESS] = choices[i].high;
			return;
		}
	STOP_AT(place, STATUS_BAD, "ports %s: wanted with, without or any", quoted(*word));
}

/* ---- lines ---- */

/* The words of a line, up to one more than a rule has, without its comment.  Gives their count. */
static int words_of(struct place place, struct word line, struct word words[COLUMNS + 1])
{
	int count = 0;
	bool inside = false, comment = false;

	for (size_t i = 0; i < line.count; i++) {
		unsigned char byte = (unsigned char)line.at[i];

		if (byte == '\r' && i + 1 == line.count)
			break;
		if ((byte < 32 && byte != '\t') || byte == 127 || (byte > 127 && !comment))
			STOP_AT(place, STATUS_BAD, "byte %u at column %zu is no plain text",
				(unsigned)byte, i + 1);
		comment = comment || byte == '#';
		if (comment || byte == ' ' || byte == '\t') {
			inside = false;
		} else if (inside) {
			words[count - 1].count++;
		} else if (count <= COLUMNS) {
			words[count++] = (struct word){ line.at + i, 1 };
			inside = true;
		}
	}
	return count;
}

static void read_rule(struct place place, const struct word *words, int count, reamstork_record *rule)
{
	if (count != COLUMNS && count != COLUMNS - 1)
		STOP_AT(place, STATUS_BAD, "%s columns: wanted " WANTED,
			count < COLUMNS ? "too few" : "too many");
	if (!read_number(words[0], &rule->number))
		STOP_AT(place, STATUS_BAD, "number %s: wanted a number up to 65534", quoted(words[0]));
	if (!read_number(words[1], &rule->action))
		STOP_AT(place, STATUS_BAD, "action %s: wanted a number up to 4294967295", quoted(words[1]));
	read_addresses(place, words[2], "destination", REAMSTORK_DESTINATION, rule);
	read_addresses(place, words[3], "source", REAMSTORK_SOURCE, rule);
	if (!read_range(words[4], REAMSTORK_PROTOCOL, read_protocol, read_number, rule))
		STOP_AT(place, STATUS_BAD, "protocol %s: wanted any, tcp, udp, icmp, a number or low-high",
			quoted(words[4]));
	read_ports(place, words[5], "dport", REAMSTORK_DESTINATION_PORT, rule);
	read_ports(place, words[6], "sport", REAMSTORK_SOURCE_PORT, rule);
	read_choice(place, count == COLUMNS ? &words[7] : NULL, rule);
}

/* ---- the whole text ---- */

struct table { uint32_t default_action; struct line *lines; size_t count; };

static struct table read_text(const char *path, struct bytes text)
{
	struct table table = { 0, NULL, 0 };
	struct place place = { path, 0 };
	struct word words[COLUMNS + 1];
	const char *at = (const char *)text.at, *behind = at + text.count;
	size_t default_line = 0, most = 0;

	while (at < behind) {
		const char *end = memchr(at, '\n', (size_t)(behind - at));
		struct word line = { at, (size_t)((end ? end : behind) - at) };
		int count;

		at = end ? end + 1 : behind;
		place.line++;
		count = words_of(place, line, words);
		if (count == 0)
			continue;
		if (is(words[0], "default")) {
			if (default_line)
				STOP_AT(place, STATUS_BAD, "a second default, beside that in line %zu",
					default_line);
			if (count != 2 || !read_number(words[1], &table.default_action))
				STOP_AT(place, STATUS_BAD, "wanted default and a number up to %u",
					(unsigned)UINT32_MAX);
			default_line = place.line;
			continue;
		}
		if (table.count == most) {
			most = most ? 2 * most : 64;
			table.lines = realloc(table.lines, most * sizeof table.lines[0]);
			if (!table.lines)
				stop(STATUS_BAD, "reamstork: no memory");
		}
		table.lines[table.count].place = place;
		read_rule(place, words, count, &table.lines[table.count].rule);
		table.count++;
	}
	if (!default_line)
		stop(STATUS_BAD, "%s:%zu: no line 'default ACTION' up to the end", path,
		     place.line ? place.line : 1);
	return table;
}

struct store store_of_text(const char *path, struct bytes text, const uint32_t *cells)
{
	struct table table = read_text(path, text);
	uint32_t c = cells ? *cells : REAMSTORK_CELLS_MAX;
	/* a c above the greatest is refused by the library whatever it is lent */
	struct store exact, store = room_for_store(c < REAMSTORK_CELLS_MAX ? c : REAMSTORK_CELLS_MAX);
	uint32_t answer = reamstork_start_with(store.words, store.len, c, table.default_action);
	reamstork_count count;

	if (answer != REAMSTORK_DONE)
		stop(STATUS_REFUSED, "%s: a store of %u cells refused: " ANSWER, path, (unsigned)c,
		     ANSWER_OF(answer));
	for (size_t i = 0; i < table.count; i++) {
		const struct line *line = &table.lines[i];
		const reamstork_record *rule = &line->rule;

		answer = reamstork_insert(store.words, store.len, rule->number, rule->action,
					  rule->low, rule->high);
		if (answer != REAMSTORK_DONE)
			STOP_AT(line->place, STATUS_REFUSED, "rule %u refused: " ANSWER,
				(unsigned)rule->number, ANSWER_OF(answer));
	}
	free(table.lines);
	free(text.at);
	if (cells)
		return store;
	/* the least c: as many cells as are in use */
	count = reamstork_cells(store.words, store.len);
	exact = room_for_store(count.cells);
	answer = reamstork_carry(store.words, store.len, exact.words, exact.len, count.cells);
	if (answer != REAMSTORK_DONE)
		stop(STATUS_REFUSED, "%s: a store of %u cells refused: " ANSWER, path,
		     (unsigned)count.cells, ANSWER_OF(answer));
	free(store.words);
	return exact;
}

/* ---- printing ---- */

static void print_address(FILE *to, uint32_t address)
{
	fprintf(to, "%u.%u.%u.%u", (unsigned)(address >> 24), (unsigned)(address >> 16 & 255),
		(unsigned)(address >> 8 & 255), (unsigned)(address & 255));
}

/* The length of the prefix that is this range, -1 where it is none. */
static int prefix_length(uint32_t low, uint32_t high)
{
	for (uint32_t length = 0; length <= 32; length++) {
		reamstork_range range = reamstork_prefix(low, length);

		if (range.answer == REAMSTORK_DONE && range.high == high)
			return (int)length;
	}
	return -1;
}

static void print_addresses(FILE *to, uint32_t low, uint32_t high)
{
	int length = prefix_length(low, high);

	if (length == 0) {
		fputs("any", to);
		return;
	}
	print_address(to, low);
	if (length > 0 && length < 32) {
		fprintf(to, "/%d", length);
	} else if (length < 0) {
		putc('-', to);
		print_address(to, high);
	}
}

static void print_protocol(FILE *to, uint32_t protocol)
{
	for (size_t i = 0; i < PROTOCOLS; i++)
		if (protocols[i].number == protocol) {
			fputs(protocols[i].name, to);
			return;
		}
	fprintf(to, "%u", (unsigned)protocol);
}

static void print_range(FILE *to, int field, uint32_t low, uint32_t high)
{
	if (low == 0 && high == tops[field])
		fputs("any", to);
	else if (low != high)
		fprintf(to, "%u-%u", (unsigned)low, (unsigned)high);
	else if (field == REAMSTORK_PROTOCOL)
		print_protocol(to, low);
	else
		fprintf(to, "%u", (unsigned)low);
}

static void print_choice(FILE *to, uint32_t low, uint32_t high)
{
	for (size_t i = 0; i < CHOICES; i++)
		if (choices[i].low == low && choices[i].high == high)
			fputs(choices[i].name, to);
}

static void print_rule(FILE *to, const reamstork_rule *rule)
{
	const uint32_t *low = rule->low, *high = rule->high;

	fprintf(to, "%u %u ", (unsigned)rule->number, (unsigned)rule->action);
	print_addresses(to, low[REAMSTORK_DESTINATION], high[REAMSTORK_DESTINATION]);
	putc(' ', to);
	print_addresses(to, low[REAMSTORK_SOURCE], high[REAMSTORK_SOURCE]);
	for (int field = REAMSTORK_PROTOCOL; field < REAMSTORK_PORTLESS; field++) {
		putc(' ', to);
		print_range(to, field, low[field], high[field]);
	}
	putc(' ', to);
	print_choice(to, low[REAMSTORK_PORTLESS], high[REAMSTORK_PORTLESS]);
	putc('\n', to);
}

void print_values(FILE *to, const uint32_t value[REAMSTORK_FIELDS])
{
	print_address(to, value[REAMSTORK_DESTINATION]);
	putc(' ', to);
	print_address(to, value[REAMSTORK_SOURCE]);
	putc(' ', to);
	print_protocol(to, value[REAMSTORK_PROTOCOL]);
	fprintf(to, " %u %u ", (unsigned)value[REAMSTORK_DESTINATION_PORT],
		(unsigned)value[REAMSTORK_SOURCE_PORT]);
	print_choice(to, value[REAMSTORK_PORTLESS], value[REAMSTORK_PORTLESS]);
}

void print_table(FILE *to, struct store store)
{
	reamstork_rule rule = reamstork_read(store.words, store.len, REAMSTORK_DEFAULT);
	uint32_t place = 1;

	if (store.words[2] == REAMSTORK_LARGE)
		fprintf(to, "# load with --cells %u for the same words\n", (unsigned)store.words[0]);
	else
		fprintf(to, "# from a small store of %u cells: load makes a large one\n",
			(unsigned)store.words[0]);
	fprintf(to, "default %u\n# number action destination source protocol dport sport ports\n",
		(unsigned)rule.action);
	while ((rule = reamstork_rule_at(store.words, store.len, place++)).answer == REAMSTORK_DONE)
		print_rule(to, &rule);
}
