/*
 * main.c - the command reamstork: its commands, each of which reads, calls
 * the library and prints
 */
#include <errno.h>
#include <inttypes.h>
#include <stdlib.h>
#include <string.h>

#include "tool.h"

#define COLUMNS "destination source protocol dport sport ports"

/* What stands on the command line: names in order, and options, null where not given. */
enum option { CELLS, READ, FIXED, PLOT, OPTIONS };
static const char *const options[OPTIONS] = {
	[CELLS] = "--cells", [READ] = "--read", [FIXED] = "--fixed", [PLOT] = "--plot",
};

struct arguments { const char *name[4]; const char *option[OPTIONS]; };

/* ---- load, show, check ---- */

static void say_store(const char *path, struct store store)
{
	printf("%s: %s store, %u rules, %u cells in use of %u\n",
	       path, store.words[2] == REAMSTORK_LARGE ? "large" : "small", (unsigned)rules_in(store),
	       (unsigned)reamstork_cells(store.words, store.len).cells, (unsigned)store.words[0]);
}

static void load(const struct arguments *given)
{
	const char *table = given->name[0], *path = given->name[1], *text = given->option[CELLS];
	uint32_t c;
	struct store store;

	if (text && !number_in(text, strlen(text), &c))
		stop(STATUS_BAD, "reamstork: --cells %s: wanted a number of cells, 6 to 65536", text);
	keep_apart(table, path);
	store = store_of_text(table, read_file(table, TEXT_MOST, "a table"), text ? &c : NULL);
	write_store(path, store);
	say_store(path, store);
	free(store.words);
}

static void show(const struct arguments *given)
{
	struct store store = read_store(given->name[0]);

	print_table(stdout, store);
	free(store.words);
}

static void check(const struct arguments *given)
{
	struct store store = read_store(given->name[0]);

	say_store(given->name[0], store);
	free(store.words);
}

/* ---- sheet ---- */

#define BLOCK 16			/* words of a block of an image */

/* A cost in nanoseconds, up to 1,000,000,000 and with up to three digits behind a point, in
 * picoseconds. */
static uint64_t cost(const char *name, const char *text)
{
	const char *point = strchr(text, '.');
	size_t whole = point ? (size_t)(point - text) : strlen(text);
	size_t behind = point ? strlen(point + 1) : 0;
	uint32_t nano = 0;
	uint64_t pico = 0;
	bool good = number_in(text, whole, &nano) && nano <= 1000000000 &&
		    (!point || (behind >= 1 && behind <= 3));

	for (size_t i = 0; good && i < 3; i++) {
		good = i >= behind || (point[1 + i] >= '0' && point[1 + i] <= '9');
		pico = 10 * pico + (i < behind && good ? (uint64_t)(point[1 + i] - '0') : 0);
	}
	if (!good)
		stop(STATUS_BAD, "reamstork: %s %s: wanted nanoseconds, as 12 or 3.25, up to 1000000000",
		     name, text);
	return 1000u * (uint64_t)nano + pico;
}

static void print_time(const char *name, uint64_t pico)
{
	printf("%-16s %" PRIu64, name, pico / 1000);
	if (pico % 1000) {
		char digits[5];
		size_t last = 3;

		snprintf(digits, sizeof digits, ".%03u", (unsigned)(pico % 1000));
		while (digits[last] == '0')
			last--;
		printf("%.*s", (int)last + 1, digits);
	}
	puts(" ns");
}

static void print_reads(const char *name, uint32_t reads, const uint32_t value[REAMSTORK_FIELDS])
{
	printf("%-16s %u by ", name, (unsigned)reads);
	print_values(stdout, value);
	putchar('\n');
}

/* A refusal of a store that passed the check a moment ago: there is none, and it is said if there is. */
static void expect(uint32_t answer, const char *path)
{
	if (answer != REAMSTORK_DONE)
		stop(STATUS_REFUSED, "%s: refused: " ANSWER, path, ANSWER_OF(answer));
}

static void sheet(const struct arguments *given)
{
	static const uint32_t zeros[REAMSTORK_FIELDS];
	const char *path = given->name[0];
	bool costs = given->option[READ] || given->option[FIXED];
	uint64_t each, fixed;
	struct store store;
	uint32_t *image, n, most_rules, front, in_all;
	bool large;
	reamstork_size size;
	reamstork_found least;
	reamstork_most most, blocks;

	if (costs && !(given->option[READ] && given->option[FIXED]))
		stop(STATUS_BAD, "reamstork: --read and --fixed go together");
	each = costs ? cost("--read", given->option[READ]) : 0;
	fixed = costs ? cost("--fixed", given->option[FIXED]) : 0;
	store = read_table_or_store(path);
	n = rules_in(store);
	in_all = 7 * n + 6;	/* the bound for any table of n rules, as the header has it */
	large = store.words[2] == REAMSTORK_LARGE;
	front = large ? REAMSTORK_WORDS(0) : REAMSTORK_SMALL_WORDS(0);
	most_rules = large ? REAMSTORK_RULES_MAX : REAMSTORK_SMALL_RULES_MAX;
	/* where every value is 0 no end is below it: one read in each field, and no lookup has fewer */
	least = reamstork_lookup(store.words, store.len, 0, 0, 0, 0, 0, 0);
	most = reamstork_worst(store.words, store.len);
	size = reamstork_image_words(store.words, store.len);
	expect(least.answer, path);
	expect(most.answer, path);
	expect(size.answer, path);
	image = room(size.words, sizeof image[0]);
	expect(reamstork_freeze(store.words, store.len, image, size.words), path);
	blocks = reamstork_image_worst(image, size.words);
	expect(blocks.answer, path);

	puts("# values in the order: " COLUMNS);
	printf("%-16s %u of %u\n", "rules", (unsigned)n, (unsigned)most_rules);
	printf("%-16s %u in use of %u\n", "cells",
	       (unsigned)reamstork_cells(store.words, store.len).cells, (unsigned)store.words[0]);
	print_reads("least reads", least.reads, zeros);
	print_reads("greatest reads", most.reads, most.value);
	printf("%-16s %u in a field, %u in all\n", "bounds of reads",
	       (unsigned)(2 * n + 1), (unsigned)in_all);
	printf("%-16s %u words, %u blocks\n", "image", (unsigned)size.words,
	       (unsigned)((size.words - front) / BLOCK));
	print_reads("greatest blocks", blocks.reads, blocks.value);
	if (costs) {
		print_time("least time", fixed + each * least.reads);
		print_time("greatest time", fixed + each * most.reads);
		print_time("bound of times", fixed + each * in_all);
	}
	free(image);
	free(store.words);
}

/* ---- dead ---- */

static void print_life(struct store store, uint32_t number, const char *path)
{
	reamstork_life life = reamstork_dead(store.words, store.len, number);

	expect(life.answer, path);
	printf("%u ", (unsigned)number);
	if (life.dead)
		fputs("dead", stdout);
	else
		print_values(stdout, life.value);
	putchar('\n');
}

static void dead(const struct arguments *given)
{
	struct store store = read_table_or_store(given->name[0]);
	reamstork_rule rule;
	uint32_t place = 1;

	puts("rule " COLUMNS);
	while ((rule = reamstork_rule_at(store.words, store.len, place++)).answer == REAMSTORK_DONE)
		print_life(store, rule.number, given->name[0]);
	print_life(store, REAMSTORK_DEFAULT, given->name[0]);
	free(store.words);
}

/* ---- decide ---- */

/* So many packets of at most 65,535 bytes keep every count below 2^32: then the record is read. */
#define COUNTED 65536

/* Counts that do not start again: what was added to a tally record since it was last read. */
struct counts {
	reamstork_tallies now, before;
	uint64_t packets[REAMSTORK_PLACES], bytes[REAMSTORK_PLACES];
};

static void read_tallies(struct counts *counts)
{
	const reamstork_tallies *before = &counts->before, *now = &counts->now;

	for (int i = 0; i < REAMSTORK_PLACES; i++) {
		counts->packets[i] += reamstork_tally_difference(before->packets[i], now->packets[i]);
		counts->bytes[i] += reamstork_tally_difference(before->bytes[i], now->bytes[i]);
	}
	counts->before = counts->now;
}

static void print_counts(const struct counts *counts, uint32_t number)
{
	for (int i = 0; i < REAMSTORK_PLACES; i++)
		if (counts->now.key[i] == number) {
			printf("%u %" PRIu64 " %" PRIu64 "\n",
			       (unsigned)number, counts->packets[i], counts->bytes[i]);
			return;
		}
	printf("%u 0 0\n", (unsigned)number);
}

static void decide(const struct arguments *given)
{
	struct store store = read_table_or_store(given->name[0]);
	struct capture *capture = open_capture(given->name[1]);
	struct counts *counts = room(1, sizeof *counts);
	reamstork_most worst = reamstork_worst(store.words, store.len);
	uint64_t *by_reads, refused = 0, greatest_place = 0, records = 0;
	uint32_t greatest = 0, place = 1;
	struct packet packet;
	reamstork_rule rule;
	const char *fault;

	expect(worst.answer, given->name[0]);
	if (given->option[PLOT]) {
		keep_apart(given->name[0], given->option[PLOT]);
		keep_apart(given->name[1], given->option[PLOT]);
	}
	by_reads = room((size_t)worst.reads + 1, sizeof by_reads[0]);
	reamstork_tallies_clear(&counts->now);
	counts->before = counts->now;
	puts("packet answer rule action reads");
	while (next_packet(capture, &packet)) {
		reamstork_found found = reamstork_lookup_packet_tally(store.words, store.len, packet.data,
								      packet.count, &counts->now);

		records = packet.place;
		printf("%" PRIu64 " %u %u %u %u\n", packet.place, (unsigned)found.answer,
		       (unsigned)found.rule, (unsigned)found.action, (unsigned)found.reads);
		if (records % COUNTED == 0)
			read_tallies(counts);
		if (found.answer != REAMSTORK_DONE) {
			refused++;
			continue;
		}
		if (found.reads <= worst.reads)
			by_reads[found.reads]++;
		if (found.reads > greatest) {
			greatest = found.reads;
			greatest_place = packet.place;
		}
	}
	read_tallies(counts);
	fault = capture_fault(capture);
	printf("end %" PRIu64 " %d\n", records, fault != NULL);

	puts("rule packets bytes");
	while ((rule = reamstork_rule_at(store.words, store.len, place++)).answer == REAMSTORK_DONE)
		print_counts(counts, rule.number);
	print_counts(counts, REAMSTORK_DEFAULT);
	printf("refused %" PRIu64 ", of these without IPv4 %" PRIu64 "\n", refused, without_ipv4(capture));
	if (greatest_place)
		printf("greatest reads %u by packet %" PRIu64 ", worst of the table %u\n",
		       (unsigned)greatest, greatest_place, (unsigned)worst.reads);
	else
		printf("no packet decided, worst of the table %u\n", (unsigned)worst.reads);
	if (given->option[PLOT])
		write_plot(given->option[PLOT], by_reads, worst.reads);
	if (fault)
		stop(STATUS_BAD, "%s: behind record %" PRIu64 ": %s", given->name[1], records, fault);
	close_capture(capture);
	free(by_reads);
	free(counts);
	free(store.words);
}

/* ---- keep ---- */

/* Where the library writes captures. */
static reamstork_written add_record(uint8_t *out, size_t len, const struct packet *packet, size_t count)
{
	return reamstork_capture_add(out, len, (uint32_t)packet->seconds, packet->millionths,
				     packet->original, packet->data, count);
}

static void keep(const struct arguments *given)
{
	static uint8_t record[REAMSTORK_RECORD_HEADER + REAMSTORK_RECORD_MOST];
	struct store store = read_table_or_store(given->name[0]);
	const char *in = given->name[2], *out = given->name[3], *fault;
	struct capture *capture;
	struct packet packet;
	uint64_t records = 0, kept = 0, cut = 0;
	reamstork_written written;
	uint32_t action;
	FILE *to;

	if (!number_in(given->name[1], strlen(given->name[1]), &action))
		stop(STATUS_BAD, "reamstork: action %s: wanted a number up to 4294967295", given->name[1]);
	keep_apart(given->name[0], out);
	keep_apart(in, out);
	capture = open_capture(in);
	to = begin_file(out);
	written = reamstork_capture_begin(record, sizeof record);
	expect(written.answer, out);
	fwrite(record, 1, written.bytes, to);
	while (next_packet(capture, &packet)) {
		reamstork_found found = reamstork_lookup_packet(store.words, store.len,
								packet.data, packet.count);

		records = packet.place;
		if (found.answer != REAMSTORK_DONE || found.action != action)
			continue;
		/* libpcap gives the 32 bits of a classic capture with a sign */
		if (packet.seconds < INT32_MIN || packet.seconds > UINT32_MAX)
			stop(STATUS_BAD, "%s: the time of record %" PRIu64 " has no place in a capture",
			     in, packet.place);
		written = add_record(record, sizeof record, &packet, packet.count);
		/* of a packet too long for a record its first bytes are kept */
		if (written.answer == REAMSTORK_TOO_LONG) {
			cut++;
			written = add_record(record, sizeof record, &packet, REAMSTORK_RECORD_MOST);
		}
		expect(written.answer, out);
		if (fwrite(record, 1, written.bytes, to) != written.bytes)
			stop(STATUS_BAD, "%s: not written: %s", out, strerror(errno));
		kept++;
	}
	end_file();
	printf("%s: %" PRIu64 " of %" PRIu64 " records kept", out, kept, records);
	if (cut)
		printf(", %" PRIu64 " of them cut to %u bytes", cut, (unsigned)REAMSTORK_RECORD_MOST);
	putchar('\n');
	fault = capture_fault(capture);
	if (fault)
		stop(STATUS_BAD, "%s: behind record %" PRIu64 ": %s", in, records, fault);
	close_capture(capture);
	free(store.words);
}

/* ---- the command line ---- */

#define MAY(option) (1u << (option))

static const struct command {
	const char *name, *usage;
	int names;
	unsigned may;			/* the options that it takes */
	void (*run)(const struct arguments *);
} commands[] = {
	{ "load", "TABLE STORE [--cells C]", 2, MAY(CELLS), load },
	{ "show", "STORE", 1, 0, show },
	{ "check", "STORE", 1, 0, check },
	{ "sheet", "FILE [--read NS --fixed NS]", 1, MAY(READ) | MAY(FIXED), sheet },
	{ "dead", "FILE", 1, 0, dead },
	{ "decide", "FILE CAPTURE [--plot SVG]", 2, MAY(PLOT), decide },
	{ "keep", "FILE ACTION IN OUT", 4, 0, keep },
};

static void print_usage(FILE *to)
{
	for (size_t i = 0; i < sizeof commands / sizeof commands[0]; i++)
		fprintf(to, "%s reamstork %s %s\n", i ? "      " : "usage:",
			commands[i].name, commands[i].usage);
	fputs("FILE is a table or a store. See man reamstork.\n", to);
}

static _Noreturn void misused(const struct command *command)
{
	stop(STATUS_BAD, "usage: reamstork %s %s", command->name, command->usage);
}

static struct arguments arguments_of(const struct command *command, char **words)
{
	struct arguments given = { { NULL }, { NULL } };
	bool names_only = false;
	int count = 0;

	for (; *words; words++) {
		int option = 0;

		if (!names_only && strcmp(*words, "--") == 0) {
			names_only = true;
			continue;
		}
		while (option < OPTIONS && strcmp(*words, options[option]) != 0)
			option++;
		if (!names_only && (*words)[0] == '-' && (*words)[1] != '\0') {
			if (option == OPTIONS || !(command->may & MAY(option)) ||
			    given.option[option] || !words[1])
				misused(command);
			given.option[option] = *++words;
			continue;
		}
		if (count == command->names)
			misused(command);
		given.name[count++] = *words;
	}
	if (count != command->names)
		misused(command);
	return given;
}

int main(int count, char **words)
{
	const char *name = count > 1 ? words[1] : "";

	if (strcmp(name, "--version") == 0) {
		puts("reamstork " REAMSTORK_VERSION);
	} else if (strcmp(name, "--help") == 0) {
		print_usage(stdout);
	} else {
		const struct command *command = NULL;

		for (size_t i = 0; i < sizeof commands / sizeof commands[0]; i++)
			if (strcmp(name, commands[i].name) == 0)
				command = &commands[i];
		if (!command) {
			print_usage(stderr);
			return STATUS_BAD;
		}
		struct arguments given = arguments_of(command, words + 2);

		command->run(&given);
	}
	if (fflush(stdout) || ferror(stdout))
		stop(STATUS_BAD, "reamstork: standard output: %s", strerror(errno));
	return STATUS_DONE;
}
