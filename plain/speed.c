/*
 * speed.c - the library beside plain C
 *
 *     speed NAME..          times over the samples of these names, as tables
 *     speed lookups NAME..  those of lookups alone
 *     speed growth NAME..   a line of times for each, for growth.sh
 *     speed lists NAME..    those of a list of edits beside the same edits singly
 *     speed draw NAME FILE  draws a sample once, for
 *     speed counts FILE     each call over it, for callgrind: see counts.sh
 *     speed list FILE       a list of edits and the same singly, for callgrind
 *
 * Both run in turns over the same words, with the same rules and packets,
 * so that neither has better memory or a quieter moment.  A figure is the
 * median over the rounds; the ratio is the median of each round's ratio,
 * the library's time over that of plain C.  The image is beside the store
 * and beside a scan in the same way, each side's own beside its own.
 *
 * With EARLIER defined an earlier archive stands in the place of plain C,
 * its calls renamed from reamstork_.. to earlier_..: see before.sh.  Then the
 * samples are of small stores, which are all that it takes.
 */
#define _POSIX_C_SOURCE 199309L
#include <stdio.h>
#include <stdlib.h>
#include <string.h>
#include <time.h>

#include "tables.h"

#ifndef ROUNDS
#define ROUNDS 21
#endif

enum { PACKETS = 1024, COLD = 24, OTHER = 8 << 20 };
enum { IMAGE_MOST = REAMSTORK_IMAGE_WORDS_MOST(65536), TINY_MOST = REAMSTORK_IMAGE_WORDS_MOST(REAMSTORK_CELLS_MIN) };
enum { RULES = REAMSTORK_RULES_MAX, LIVES = 65 };

struct library {
	uint32_t (*carry)(const uint32_t *, size_t, uint32_t *, size_t, uint32_t);
	uint32_t (*insert)(uint32_t *, size_t, uint32_t, uint32_t, const uint32_t *, const uint32_t *);
	uint32_t (*delete)(uint32_t *, size_t, uint32_t);
	reamstork_listed (*edit_list)(uint32_t *, size_t, const reamstork_edit *, size_t);
	uint32_t (*check)(const uint32_t *, size_t);
	reamstork_life (*dead)(const uint32_t *, size_t, uint32_t);
	reamstork_most (*worst)(const uint32_t *, size_t);
	reamstork_found (*lookup)(const uint32_t *, size_t, uint32_t, uint32_t, uint32_t, uint32_t, uint32_t, uint32_t);
	reamstork_found (*lookup_packet)(const uint32_t *, size_t, const uint8_t *, size_t);
	reamstork_found (*tally)(const uint32_t *, size_t, const uint8_t *, size_t, reamstork_tallies *);
	reamstork_winner (*scan)(const reamstork_record *, size_t, uint32_t, uint32_t, uint32_t, uint32_t, uint32_t, uint32_t, uint32_t);
	reamstork_size (*image_words)(const uint32_t *, size_t);
	uint32_t (*freeze)(const uint32_t *, size_t, uint32_t *, size_t);
	uint32_t (*image_check)(const uint32_t *, size_t);
	reamstork_most (*image_worst)(const uint32_t *, size_t);
	reamstork_found (*image_lookup)(const uint32_t *, size_t, uint32_t, uint32_t, uint32_t, uint32_t, uint32_t, uint32_t);
	reamstork_found (*image_lookup_packet)(const uint32_t *, size_t, const uint8_t *, size_t);
	reamstork_found (*image_tally)(const uint32_t *, size_t, const uint8_t *, size_t, reamstork_tallies *);
};

#ifdef EARLIER
#define OTHER_NAME "earlier"

uint32_t earlier_insert(uint32_t *, size_t, uint32_t, uint32_t, const uint32_t *, const uint32_t *);
uint32_t earlier_delete(uint32_t *, size_t, uint32_t);
uint32_t earlier_check(const uint32_t *, size_t);
reamstork_life earlier_dead(const uint32_t *, size_t, uint32_t);
reamstork_most earlier_worst(const uint32_t *, size_t);
reamstork_found earlier_lookup(const uint32_t *, size_t, uint32_t, uint32_t, uint32_t, uint32_t, uint32_t, uint32_t);
reamstork_found earlier_lookup_packet(const uint32_t *, size_t, const uint8_t *, size_t);
reamstork_found earlier_lookup_packet_tally(const uint32_t *, size_t, const uint8_t *, size_t, void *);
reamstork_winner earlier_scan(const reamstork_record *, size_t, uint32_t, uint32_t, uint32_t, uint32_t, uint32_t, uint32_t, uint32_t);
reamstork_size earlier_image_words(const uint32_t *, size_t);
uint32_t earlier_freeze(const uint32_t *, size_t, uint32_t *, size_t);
uint32_t earlier_image_check(const uint32_t *, size_t);
reamstork_most earlier_image_worst(const uint32_t *, size_t);
reamstork_found earlier_image_lookup(const uint32_t *, size_t, uint32_t, uint32_t, uint32_t, uint32_t, uint32_t, uint32_t);
reamstork_found earlier_image_lookup_packet(const uint32_t *, size_t, const uint8_t *, size_t);
reamstork_found earlier_image_lookup_packet_tally(const uint32_t *, size_t, const uint8_t *, size_t, void *);

/* The earlier tally record has a place for each of 64 rules and the default. */
static struct { uint32_t key[65], packets[65], bytes[65]; } earlier_tallies;

static reamstork_found earlier_tally(const uint32_t *w, size_t l, const uint8_t *p, size_t n, reamstork_tallies *t)
{
	(void)t;
	return earlier_lookup_packet_tally(w, l, p, n, &earlier_tallies);
}

static reamstork_found earlier_image_tally(const uint32_t *w, size_t l, const uint8_t *p, size_t n, reamstork_tallies *t)
{
	(void)t;
	return earlier_image_lookup_packet_tally(w, l, p, n, &earlier_tallies);
}
#else
#define OTHER_NAME "plain C"
#endif

static const struct library both[2] = {
	{ reamstork_carry, reamstork_insert, reamstork_delete, reamstork_edit_list, reamstork_check, reamstork_dead, reamstork_worst, reamstork_lookup, reamstork_lookup_packet, reamstork_lookup_packet_tally, reamstork_scan,
	  reamstork_image_words, reamstork_freeze, reamstork_image_check, reamstork_image_worst, reamstork_image_lookup, reamstork_image_lookup_packet, reamstork_image_lookup_packet_tally },
#ifdef EARLIER
	{ NULL, earlier_insert, earlier_delete, NULL, earlier_check, earlier_dead, earlier_worst, earlier_lookup, earlier_lookup_packet, earlier_tally, earlier_scan,
	  earlier_image_words, earlier_freeze, earlier_image_check, earlier_image_worst, earlier_image_lookup, earlier_image_lookup_packet, earlier_image_tally },
#else
	{ plain_carry, plain_insert, plain_delete, plain_edit_list, plain_check, plain_dead, plain_worst, plain_lookup, plain_lookup_packet, plain_lookup_packet_tally, plain_scan,
	  plain_image_words, plain_freeze, plain_image_check, plain_image_worst, plain_image_lookup, plain_image_lookup_packet, plain_image_lookup_packet_tally },
#endif
};

/*
 * The samples, by name: a small store or a large one, how many rules, c, the
 * cells that the tree may take, and whether the rules overlap much.
 */
struct sample {
	const char *name;
	int small;
	uint32_t n, c, budget;
	int overlap;
};

static const struct sample samples[] = {
	{ "small-0", 1, 0, 1920, 0, 0 },
	{ "small-10", 1, 10, 1920, 400, 0 },
	{ "small-60", 1, 60, 1920, 1900, 0 },
	{ "small-overlap-60", 1, 60, 65536, 60000, 1 },
	{ "10", 0, 10, 1920, 400, 0 },
	{ "60", 0, 60, 1920, 1900, 0 },
	{ "narrow-10", 0, 10, 65536, 320, 0 },
	{ "narrow-20", 0, 20, 65536, 640, 0 },
	{ "narrow-50", 0, 50, 65536, 1600, 0 },
	{ "narrow-100", 0, 100, 65536, 3200, 0 },
	{ "narrow-200", 0, 200, 65536, 6400, 0 },
	{ "narrow-400", 0, 400, 65536, 12800, 0 },
	{ "narrow-512", 0, 512, 65536, 16384, 0 },
	{ "overlap-10", 0, 10, 65536, 1500, 1 },
	{ "overlap-20", 0, 20, 65536, 3000, 1 },
	{ "overlap-50", 0, 50, 65536, 7500, 1 },
	{ "overlap-100", 0, 100, 65536, 15000, 1 },
	{ "overlap-200", 0, 200, 65536, 30000, 1 },
	{ "overlap-400", 0, 400, 65536, 60000, 1 },
	{ "overlap-512", 0, 512, 65536, 65024, 1 },
};

static _Alignas(64) uint32_t words[REAMSTORK_WORDS(65536)], carried[REAMSTORK_WORDS(65536)];
static _Alignas(64) uint32_t tiny[REAMSTORK_WORDS(REAMSTORK_CELLS_MIN)];
static _Alignas(64) uint32_t image[IMAGE_MOST], second[IMAGE_MOST];
static _Alignas(64) uint32_t tiny_image[TINY_MOST];
static struct rule rules[RULES];
static reamstork_edit edits_of_list[REAMSTORK_LIST_MAX];
static _Alignas(64) reamstork_record records[RULES];
static uint32_t values[PACKETS][REAMSTORK_FIELDS];
static uint8_t packets[PACKETS][28];
static reamstork_tallies tallies;
static _Alignas(64) uint8_t other[OTHER];
static volatile uint32_t sink;
static uint32_t rule_count, cell_count;
static int is_small;
static size_t len, tiny_len, image_len, tiny_image_len;

static double read_clock(clockid_t clock)
{
	struct timespec t;

	clock_gettime(clock, &t);
	return (double)t.tv_sec * 1e9 + (double)t.tv_nsec;
}

/* The processor's time for this thread, so that other work on the machine counts as little as can be. */
static double now(void)
{
	return read_clock(CLOCK_THREAD_CPUTIME_ID);
}

/* The time of day, for what is too short for that: reading it takes no call of the system. */
static double quick_now(void)
{
	return read_clock(CLOCK_MONOTONIC);
}

static void fail(const char *why)
{
	fprintf(stderr, "speed: %s\n", why);
	exit(1);
}

/* What decides a packet: the store, its image, or the list of its rules. */
enum subject { STORE, IMAGE, LIST };

#define INLINE inline __attribute__((always_inline))
#define APART __attribute__((noinline, noclone))

/* The subject is a constant wherever this stands, so that it costs nothing. */
static INLINE uint32_t decided(const struct library *l, enum subject by, const uint32_t *v)
{
	if (by == STORE)
		return l->lookup(words, len, v[0], v[1], v[2], v[3], v[4], v[5]).rule;
	if (by == IMAGE)
		return l->image_lookup(image, image_len, v[0], v[1], v[2], v[3], v[4], v[5]).rule;
	return l->scan(records, rule_count, REAMSTORK_DEFAULT_ACTION, v[0], v[1], v[2], v[3], v[4], v[5]).rule;
}

static INLINE void all_values(const struct library *l, double *took, enum subject by)
{
	uint32_t sum = 0;
	double from = now();

	for (int i = 0; i < PACKETS; i++)
		sum += decided(l, by, values[i]);
	took[0] = (now() - from) / PACKETS;
	sink = sum;
}

static void by_values(const struct library *l, double *took)
{
	all_values(l, took, STORE);
}

static void image_by_values(const struct library *l, double *took)
{
	all_values(l, took, IMAGE);
}

/* The scan through the table's rules, in the order in which they were drawn. */
static void by_scan(const struct library *l, double *took)
{
	all_values(l, took, LIST);
}

static void by_packet(const struct library *l, double *took)
{
	uint32_t sum = 0;
	double from = now();

	for (int i = 0; i < PACKETS; i++)
		sum += l->lookup_packet(words, len, packets[i], sizeof packets[i]).rule;
	took[0] = (now() - from) / PACKETS;
	sink = sum;
}

static void image_by_packet(const struct library *l, double *took)
{
	uint32_t sum = 0;
	double from = now();

	for (int i = 0; i < PACKETS; i++)
		sum += l->image_lookup_packet(image, image_len, packets[i], sizeof packets[i]).rule;
	took[0] = (now() - from) / PACKETS;
	sink = sum;
}

/* With tallies, in a record that holds every rule's number, the default's at the end. */
static void by_tally(const struct library *l, double *took)
{
	uint32_t sum = 0;
	double from = now();

	for (int i = 0; i < PACKETS; i++)
		sum += l->tally(words, len, packets[i], sizeof packets[i], &tallies).rule;
	took[0] = (now() - from) / PACKETS;
	sink = sum;
}

static void image_by_tally(const struct library *l, double *took)
{
	uint32_t sum = 0;
	double from = now();

	for (int i = 0; i < PACKETS; i++)
		sum += l->image_tally(image, image_len, packets[i], sizeof packets[i], &tallies).rule;
	took[0] = (now() - from) / PACKETS;
	sink = sum;
}

/*
 * Decisions after 8 MiB of other reads each; with warm code only the words
 * are cold.  Two calls one after the other take the same packets.
 */
static uint32_t turns;

static INLINE void after_others(const struct library *l, double *took, int warm_code, enum subject by)
{
	uint32_t sum = 0, at = turns++ / 2 * COLD;
	double empty = quick_now();

	empty = quick_now() - empty;
	took[0] = 0;
	for (int i = 0; i < COLD; i++) {
		const uint32_t *v = values[(at + i) % PACKETS];
		double from;

		for (size_t j = 0; j < OTHER; j += 64)
			sum += other[j];
		sink = sum;
		if (warm_code && by == STORE)
			sum += l->lookup(tiny, tiny_len, v[0], v[1], v[2], v[3], v[4], v[5]).rule;
		if (warm_code && by == IMAGE)
			sum += l->image_lookup(tiny_image, tiny_image_len, v[0], v[1], v[2], v[3], v[4], v[5]).rule;
		from = quick_now();
		sum += decided(l, by, v);
		took[0] += (quick_now() - from - empty) / COLD;
	}
	sink = sum;
}

static void cold(const struct library *l, double *took)
{
	after_others(l, took, 0, STORE);
}

static void cold_words(const struct library *l, double *took)
{
	after_others(l, took, 1, STORE);
}

static void image_cold(const struct library *l, double *took)
{
	after_others(l, took, 0, IMAGE);
}

static void image_cold_words(const struct library *l, double *took)
{
	after_others(l, took, 1, IMAGE);
}

static void scan_cold(const struct library *l, double *took)
{
	after_others(l, took, 0, LIST);
}

/* How often a call over the whole store is made in one round. */
static int often(void)
{
	return rule_count > 64 ? 1 : 4;
}

static void check(const struct library *l, double *took)
{
	int times = often();
	double from = now();

	for (int i = 0; i < times; i++)
		if (l->check(words, len) != 0)
			fail("the check does not pass");
	took[0] = (now() - from) / times;
}

/* Takes rules out and puts them in again, one after the other. */
static void edits(const struct library *l, double *took)
{
	uint32_t times = rule_count > 64 ? 3 : 8;

	took[0] = took[1] = 0;
	for (uint32_t i = 0; i < times; i++) {
		const struct rule *r = &rules[i * (rule_count - 1) / (times - 1)];
		double a = now(), b;
		uint32_t wrong = l->delete(words, len, r->number);

		b = now();
		wrong |= l->insert(words, len, r->number, r->action, r->low, r->high);
		if (wrong)
			fail("an edit is refused");
		took[0] += (now() - b) / times;
		took[1] += (b - a) / times;
	}
}

/* The inserts of these alone. */
static void inserts(const struct library *l, double *took)
{
	double both_kinds[2];

	edits(l, both_kinds);
	took[0] = both_kinds[0];
}

/* The longest list, as one. */
static void list(const struct library *l, double *took)
{
	int times = often();
	double from = now();

	for (int i = 0; i < times; i++)
		if (l->edit_list(words, len, edits_of_list, REAMSTORK_LIST_MAX).answer != 0)
			fail("a list is refused");
	took[0] = (now() - from) / times;
}

/* Its edits one by one; says whether one is refused.  Callgrind tells its calls apart. */
APART static uint32_t one_by_one(const struct library *l)
{
	uint32_t wrong = 0;

	for (int i = 0; i < REAMSTORK_LIST_MAX; i++) {
		const reamstork_edit *e = &edits_of_list[i];

		wrong |= e->remove ? l->delete(words, len, e->number) : l->insert(words, len, e->number, e->action, e->low, e->high);
	}
	return wrong;
}

static void singly(const struct library *l, double *took)
{
	double from = now();

	if (one_by_one(l) != 0)
		fail("an edit is refused");
	took[0] = now() - from;
}

/* Carries the table into a large store of as many cells. */
static void carry(const struct library *l, double *took)
{
	int times = often();
	double from = now();

	for (int i = 0; i < times; i++)
		if (l->carry(words, len, carried, REAMSTORK_WORDS(words[0]), words[0]) != 0)
			fail("a carrying is refused");
	took[0] = (now() - from) / times;
}

/* Of these rules a life is asked: of all where they are few, the last one being the default. */
static uint32_t lives_asked(void)
{
	return rule_count < LIVES ? rule_count + 1 : 17;
}

static uint32_t life_of(uint32_t i)
{
	if (i + 1 == lives_asked())
		return REAMSTORK_DEFAULT;
	return rule_count < LIVES ? rules[i].number : rules[i * (rule_count / 16)].number;
}

/* One call of dead for each of them. */
static void lives(const struct library *l, double *took)
{
	for (uint32_t i = 0; i < lives_asked(); i++) {
		uint32_t number = life_of(i);
		double from = now();

		if (l->dead(words, len, number).answer != 0)
			fail("a rule's life is refused");
		took[i] = now() - from;
	}
}

static void worst_packet(const struct library *l, double *took)
{
	int times = often();
	double from = now();

	for (int i = 0; i < times; i++)
		if (l->worst(words, len).answer != 0)
			fail("the worst packet is refused");
	took[0] = (now() - from) / times;
}

static void count_image(const struct library *l, double *took)
{
	int times = often();
	double from = now();

	for (int i = 0; i < times; i++)
		if (l->image_words(words, len).words != image_len)
			fail("the image has another length");
	took[0] = (now() - from) / times;
}

static void freeze(const struct library *l, double *took)
{
	int times = often();
	double from = now();

	for (int i = 0; i < times; i++)
		if (l->freeze(words, len, image, IMAGE_MOST) != 0)
			fail("a freeze is refused");
	took[0] = (now() - from) / times;
}

static void check_image(const struct library *l, double *took)
{
	int times = often();
	double from = now();

	for (int i = 0; i < times; i++)
		if (l->image_check(image, image_len) != 0)
			fail("the image check does not pass");
	took[0] = (now() - from) / times;
}

static void worst_of_image(const struct library *l, double *took)
{
	int times = often();
	double from = now();

	for (int i = 0; i < times; i++)
		if (l->image_worst(image, image_len).answer != 0)
			fail("the worst packet of an image is refused");
	took[0] = (now() - from) / times;
}

static int rising(const void *a, const void *b)
{
	double x = *(const double *)a, y = *(const double *)b;

	return (x > y) - (x < y);
}

static double median(double *x)
{
	qsort(x, ROUNDS, sizeof *x, rising);
	return x[ROUNDS / 2];
}

/* Rounds of one thing, which gives one or two figures. */
static void measure(void (*thing)(const struct library *, double *), int figures, const char *const *names)
{
	double took[2][2][ROUNDS], ratio[2][ROUNDS], t[2];

	thing(&both[0], t);
	thing(&both[1], t);
	for (int i = 0; i < ROUNDS; i++) {
		for (int j = 0; j < 2; j++) {
			int which = (i + j) % 2;

			thing(&both[which], t);
			for (int k = 0; k < figures; k++)
				took[k][which][i] = t[k];
		}
		for (int k = 0; k < figures; k++)
			ratio[k][i] = took[k][0][i] / took[k][1][i];
	}
	for (int k = 0; k < figures; k++)
		printf("  %-24s %12.1f ns %12.1f ns %8.2f\n", names[k], median(took[k][0]), median(took[k][1]), median(ratio[k]));
}

/*
 * What a rule's life takes: the mean over the rules and the default, and the
 * rule that takes longest, by the medians over the rounds.  Then both over a
 * check, which is a part of each such call: the library's calls over the
 * library's check, those of plain C over its own.
 */
static void measure_lives(void)
{
	static double took[2][LIVES][ROUNDS], checks[2][ROUNDS];
	double t[LIVES], mean[2] = { 0, 0 }, worst[2] = { 0, 0 }, one[2];

	for (int i = -1; i < ROUNDS; i++) {
		for (int j = 0; j < 2; j++) {
			int which = (i + j) & 1;

			check(&both[which], t);
			if (i >= 0)
				checks[which][i] = t[0];
			lives(&both[which], t);
			for (uint32_t k = 0; i >= 0 && k < lives_asked(); k++)
				took[which][k][i] = t[k];
		}
	}
	for (int which = 0; which < 2; which++) {
		one[which] = median(checks[which]);
		for (uint32_t k = 0; k < lives_asked(); k++) {
			double m = median(took[which][k]);

			mean[which] += m / lives_asked();
			worst[which] = m > worst[which] ? m : worst[which];
		}
	}
	printf("  %-24s %12.1f ns %12.1f ns %8.2f\n", "dead, mean of rules", mean[0], mean[1], mean[0] / mean[1]);
	printf("  %-24s %12.1f ns %12.1f ns %8.2f\n", "dead, the worst rule", worst[0], worst[1], worst[0] / worst[1]);
	printf("  %-24s %12.2f    %12.2f\n", "dead, mean over a check", mean[0] / one[0], mean[1] / one[1]);
	printf("  %-24s %12.2f    %12.2f\n", "dead, worst over a check", worst[0] / one[0], worst[1] / one[1]);
}

/*
 * What a thing takes, where it has a name, and the same over another that is
 * measured beside it: in each round each side's thing over its own other one
 * just before it, and of these the median.
 */
static void measure_over(void (*thing)(const struct library *, double *), void (*base)(const struct library *, double *), const char *name, const char *over_name)
{
	double took[2][ROUNDS], over[2][ROUNDS], ratio[ROUNDS], one, t;

	for (int i = -1; i < ROUNDS; i++) {
		for (int j = 0; j < 2; j++) {
			int which = (i + j) & 1;

			base(&both[which], &one);
			thing(&both[which], &t);
			if (i >= 0) {
				took[which][i] = t;
				over[which][i] = t / one;
			}
		}
		if (i >= 0)
			ratio[i] = took[0][i] / took[1][i];
	}
	if (name)
		printf("  %-24s %12.1f ns %12.1f ns %8.2f\n", name, median(took[0]), median(took[1]), median(ratio));
	printf("  %-24s %12.2f    %12.2f\n", over_name, median(over[0]), median(over[1]));
}

/* What goes with a table in the words: packets, its image, a list of its rules, a tally record. */
static void prepare(void)
{
	seed = 20261116;
	for (uint32_t i = 0; i < rule_count; i++) {
		records[i].number = rules[i].number;
		records[i].action = rules[i].action;
		memcpy(records[i].low, rules[i].low, sizeof records[i].low);
		memcpy(records[i].high, rules[i].high, sizeof records[i].high);
	}
	for (int i = 0; i < PACKETS; i++) {
		draw_values(values[i], rules, rule_count);
		write_packet(packets[i], values[i]);
	}
	cell_count = plain_cells(words, len).cells;
	image_len = plain_image_words(words, len).words;
	if (plain_freeze(words, len, image, IMAGE_MOST) != 0)
		fail("the sample cannot be frozen");
	/* the numbers of all rules, and behind them that of the default */
	plain_tallies_clear(&tallies);
	for (uint32_t i = 0; i < rule_count; i++)
		tallies.key[i] = rules[i].number;
	tallies.key[rule_count] = REAMSTORK_DEFAULT;
#ifdef EARLIER
	memset(&earlier_tallies, 0xff, sizeof earlier_tallies);
	memcpy(earlier_tallies.key, tallies.key, sizeof earlier_tallies.key);
#endif
	if (is_small)
		start_small(tiny, REAMSTORK_CELLS_MIN);
	else
		plain_start(tiny, REAMSTORK_WORDS(REAMSTORK_CELLS_MIN), REAMSTORK_CELLS_MIN);
	tiny_len = is_small ? REAMSTORK_SMALL_WORDS(REAMSTORK_CELLS_MIN) : REAMSTORK_WORDS(REAMSTORK_CELLS_MIN);
	tiny_image_len = plain_image_words(tiny, tiny_len).words;
	plain_freeze(tiny, tiny_len, tiny_image, TINY_MOST);
}

static void draw_sample(const char *name)
{
	const struct sample *s = samples, *past = samples + sizeof samples / sizeof samples[0];

	while (s < past && strcmp(s->name, name) != 0)
		s++;
	if (s == past)
		fail("no such sample");
	seed = 20261115;
	is_small = s->small;
	rule_count = s->n;
	len = draw_table(words, is_small, s->c, rules, s->n, s->budget, s->overlap);
}

/* A sample in a file: what it is, its rules, its words. */
static void keep_sample(const char *name, const char *file)
{
	uint32_t what[2];
	FILE *f = fopen(file, "wb");

	draw_sample(name);
	what[0] = (uint32_t)is_small;
	what[1] = rule_count;
	if (f == NULL || fwrite(what, sizeof what, 1, f) != 1 || fwrite(rules, sizeof rules, 1, f) != 1 || fwrite(words, sizeof words, 1, f) != 1 || fclose(f) != 0)
		fail("the sample cannot be written");
}

static void load_sample(const char *file)
{
	uint32_t what[2];
	FILE *f = fopen(file, "rb");

	if (f == NULL || fread(what, sizeof what, 1, f) != 1 || fread(rules, sizeof rules, 1, f) != 1 || fread(words, sizeof words, 1, f) != 1)
		fail("the sample cannot be read");
	fclose(f);
	is_small = (int)what[0];
	rule_count = what[1];
	len = is_small ? REAMSTORK_SMALL_WORDS(words[0]) : REAMSTORK_WORDS(words[0]);
}

static void same_answer(reamstork_found a, reamstork_found b)
{
	if (a.answer != 0 || memcmp(&a, &b, sizeof a) != 0)
		fail("the answers differ");
}

static void same_life(reamstork_life a, reamstork_life b)
{
	if (a.answer != 0 || memcmp(&a, &b, sizeof a) != 0)
		fail("the lives of a rule differ");
}

static void same_most(reamstork_most a, reamstork_most b)
{
	if (a.answer != 0 || memcmp(&a, &b, sizeof a) != 0)
		fail("the worst packets differ");
}

static void same_winner(reamstork_found a, reamstork_winner b)
{
	if (b.answer != 0 || a.rule != b.rule || a.action != b.action)
		fail("the scan answers otherwise");
}

/* An image names the store's rule and action; its reads are another number. */
static void same_rule(reamstork_found a, reamstork_found b)
{
	if (b.answer != 0 || a.rule != b.rule || a.action != b.action)
		fail("the image answers otherwise");
}

/* Both libraries freeze the same words, and look up alike in them. */
static void describe_image(void)
{
	uint32_t most = 0, least = UINT32_MAX;
	uint64_t blocks = 0;
	reamstork_most worst = plain_image_worst(image, image_len);

	memset(second, 0x55, sizeof second);
	if (reamstork_image_words(words, len).words != image_len || reamstork_freeze(words, len, second, image_len) != 0 || memcmp(image, second, image_len * sizeof *image) != 0)
		fail("the images differ");
	if (second[image_len] != 0x55555555 || reamstork_freeze(words, len, second, image_len - 1) != REAMSTORK_BAD_SIZE)
		fail("an image takes more than its words");
	if (reamstork_image_check(image, image_len) != 0 || plain_image_check(image, image_len) != 0)
		fail("an image does not pass");
	for (int i = 0; i < PACKETS; i++) {
		const uint32_t *v = values[i];
		reamstork_found f = plain_image_lookup(image, image_len, v[0], v[1], v[2], v[3], v[4], v[5]);

		same_rule(plain_lookup(words, len, v[0], v[1], v[2], v[3], v[4], v[5]), f);
		same_answer(f, reamstork_image_lookup(image, image_len, v[0], v[1], v[2], v[3], v[4], v[5]));
		same_answer(f, reamstork_image_lookup_packet(image, image_len, packets[i], sizeof packets[i]));
		same_answer(f, plain_image_lookup_packet(image, image_len, packets[i], sizeof packets[i]));
		blocks += f.reads;
		if (f.reads < least)
			least = f.reads;
		if (f.reads > most)
			most = f.reads;
	}
	same_most(worst, reamstork_image_worst(image, image_len));
	if (most > worst.reads)
		fail("a packet reads more blocks than the worst");
	printf("  image: %u blocks, %u words; blocks read %u to %u, mean %.1f, worst of any values %u\n", (unsigned)(image_len - (is_small ? 1024 : 8192)) / 16, (unsigned)image_len, least, most, (double)blocks / PACKETS, worst.reads);
}

/* Says what the sample is, and that both libraries answer alike. */
static void describe(void)
{
	uint32_t most = 0, least = UINT32_MAX, dead = 0;
	uint64_t reads = 0;
	reamstork_most worst = plain_worst(words, len);

	for (int i = 0; i < PACKETS; i++) {
		const uint32_t *v = values[i];
		reamstork_found f = plain_lookup(words, len, v[0], v[1], v[2], v[3], v[4], v[5]);

		same_answer(f, reamstork_lookup(words, len, v[0], v[1], v[2], v[3], v[4], v[5]));
		same_answer(f, reamstork_lookup_packet(words, len, packets[i], sizeof packets[i]));
		same_answer(f, plain_lookup_packet(words, len, packets[i], sizeof packets[i]));
		same_winner(f, reamstork_scan(records, rule_count, REAMSTORK_DEFAULT_ACTION, v[0], v[1], v[2], v[3], v[4], v[5]));
		same_winner(f, plain_scan(records, rule_count, REAMSTORK_DEFAULT_ACTION, v[0], v[1], v[2], v[3], v[4], v[5]));
		reads += f.reads;
		if (f.reads < least)
			least = f.reads;
		if (f.reads > most)
			most = f.reads;
	}
	for (uint32_t i = 0; i < lives_asked(); i++) {
		uint32_t number = life_of(i);
		reamstork_life f = plain_dead(words, len, number);

		same_life(f, reamstork_dead(words, len, number));
		dead += f.dead;
	}
	same_most(worst, reamstork_worst(words, len));
	if (most > worst.reads)
		fail("a packet reads more than the worst");
	memset(carried, 0x55, sizeof carried);
	if (plain_carry(words, len, carried, REAMSTORK_WORDS(words[0]), words[0]) != 0)
		fail("a carrying is refused");
	memset(second, 0x55, sizeof carried);
	if (reamstork_carry(words, len, second, REAMSTORK_WORDS(words[0]), words[0]) != 0 || memcmp(second, carried, sizeof carried) != 0)
		fail("the carried stores differ");
	printf("%u rules in a %s store, c = %u, %u cells in use; reads %u to %u, mean %.1f, worst of any values %u; of %u rules %u dead\n", rule_count, is_small ? "small" : "large", words[0], cell_count, least, most, (double)reads / PACKETS, worst.reads, lives_asked() - 1, dead);
	describe_image();
}

/* What every lookup costs, in a store and in its image. */
static void lookup_times(void)
{
	static const char *const names[] = { "lookup by values", "lookup by packet", "lookup with tallies", "lookup, cold caches", "lookup, cold words only" };
	static const char *const image_names[] = { "image: by values", "image: by packet", "image: with tallies", "image: cold caches", "image: cold words only" };

	measure(by_values, 1, &names[0]);
	measure(by_packet, 1, &names[1]);
	measure(by_tally, 1, &names[2]);
	measure(cold, 1, &names[3]);
	measure(cold_words, 1, &names[4]);
	measure(image_by_values, 1, &image_names[0]);
	measure(image_by_packet, 1, &image_names[1]);
	measure(image_by_tally, 1, &image_names[2]);
	measure(image_cold, 1, &image_names[3]);
	measure(image_cold_words, 1, &image_names[4]);
	measure_over(image_by_values, by_values, NULL, "image over store, warm");
	measure_over(image_cold, cold, NULL, "image over store, cold");
	if (rule_count > 0) {
		static const char *const scan_name = "scan";

		measure(by_scan, 1, &scan_name);
		measure_over(image_by_values, by_scan, NULL, "image over scan, warm");
		measure_over(image_cold, scan_cold, NULL, "image over scan, cold");
	}
}

/* What the calls over a whole store or image cost. */
static void call_times(void)
{
	static const char *const check_name = "check";
	static const char *const edit_names[] = { "insert", "delete" };

	measure(check, 1, &check_name);
	if (rule_count > 0) {
		measure(edits, 2, edit_names);
		measure_over(inserts, check, NULL, "insert, over a check");
	}
	if (both[1].carry) {
		measure_over(carry, check, "carry", "carry, over a check");
		if (rule_count > 0)
			measure_over(carry, inserts, NULL, "carry, over an insert");
	}
	measure_lives();
	measure_over(worst_packet, check, "worst", "worst, over a check");
	measure_over(count_image, check, "image_words", "image_words, over a check");
	measure_over(freeze, check, "freeze", "freeze, over a check");
	measure_over(check_image, check, "image_check", "image_check, over a check");
	measure_over(worst_of_image, check_image, "image_worst", "image_worst, over its check");
}

static void times(const char *name, int lookups_alone)
{
	draw_sample(name);
	prepare();
	printf("%s: ", name);
	describe();
	printf("  %-24s %12s    %12s    %8s\n", "", "library", OTHER_NAME, "ratio");
	lookup_times();
	if (!lookups_alone)
		call_times();
	printf("\n");
	fflush(stdout);
}

/* What a list costs, beside its edits singly and beside a check. */
static void list_times(const char *name)
{
	static const char *const singly_name = "the 32 edits singly";

	draw_sample(name);
	full_list(edits_of_list, rules, rule_count);
	memcpy(carried, words, sizeof words);
	for (int which = 0; which < 2; which++) {
		reamstork_listed l = both[which].edit_list(words, len, edits_of_list, REAMSTORK_LIST_MAX);

		if (l.answer != 0 || l.place != 0 || memcmp(words, carried, sizeof words) != 0)
			fail("a list leaves other words");
	}
	printf("%s: %u rules in a %s store, c = %u, %u cells in use\n", name, rule_count, is_small ? "small" : "large", words[0], plain_cells(words, len).cells);
	printf("  %-24s %12s    %12s    %8s\n", "", "library", OTHER_NAME, "ratio");
	measure(singly, 1, &singly_name);
	measure_over(list, check, "a list of them", "the list, over a check");
	measure_over(list, singly, NULL, "the list, over singly");
	printf("\n");
	fflush(stdout);
}

/* One line of a sample: what it is, then for each call the library's time, and the ratio to that of plain C. */
static void grow(const char *name)
{
	static void (*const things[])(const struct library *, double *) = { check, inserts, freeze, check_image, by_values, image_by_values };
	uint64_t reads = 0, blocks = 0;

	draw_sample(name);
	prepare();
	for (int i = 0; i < PACKETS; i++) {
		const uint32_t *v = values[i];

		reads += plain_lookup(words, len, v[0], v[1], v[2], v[3], v[4], v[5]).reads;
		blocks += plain_image_lookup(image, image_len, v[0], v[1], v[2], v[3], v[4], v[5]).reads;
	}
	printf("%s %u %u %u %.1f %.1f", name, rule_count, cell_count, (unsigned)(image_len - 8192) / 16, (double)reads / PACKETS, (double)blocks / PACKETS);
	for (size_t k = 0; k < sizeof things / sizeof things[0]; k++) {
		double took[2][ROUNDS], ratio[ROUNDS], t;

		for (int i = -1; i < ROUNDS; i++) {
			for (int j = 0; j < 2; j++) {
				int which = (i + j) & 1;

				things[k](&both[which], &t);
				if (i >= 0)
					took[which][i] = t;
			}
			if (i >= 0)
				ratio[i] = took[0][i] / took[1][i];
		}
		printf(" %.1f %.3f", median(took[0]), median(ratio));
	}
	printf("\n");
	fflush(stdout);
}

/*
 * For callgrind, which keeps what each caller's calls of a function cost:
 * the callers here call each of them a known number of times, and nothing
 * else does so from them.  First all packets.
 */
APART static uint32_t count_packets(const struct library *l)
{
	uint32_t sum = 0;

	for (int i = 0; i < PACKETS; i++) {
		const uint32_t *v = values[i];

		sum += l->lookup(words, len, v[0], v[1], v[2], v[3], v[4], v[5]).reads;
		sum += l->lookup_packet(words, len, packets[i], sizeof packets[i]).reads;
		sum += l->tally(words, len, packets[i], sizeof packets[i], &tallies).reads;
		sum += l->scan(records, rule_count, REAMSTORK_DEFAULT_ACTION, v[0], v[1], v[2], v[3], v[4], v[5]).rule;
		sum += l->image_lookup(image, image_len, v[0], v[1], v[2], v[3], v[4], v[5]).reads;
		sum += l->image_lookup_packet(image, image_len, packets[i], sizeof packets[i]).reads;
		sum += l->image_tally(image, image_len, packets[i], sizeof packets[i], &tallies).reads;
	}
	return sum;
}

/* The packet of the most reads in this store and in its image, and one where there are no rules. */
APART static uint32_t count_most(const struct library *l, const uint32_t *v, const uint32_t *w)
{
	return l->lookup(words, len, v[0], v[1], v[2], v[3], v[4], v[5]).reads + l->image_lookup(image, image_len, w[0], w[1], w[2], w[3], w[4], w[5]).reads;
}

APART static uint32_t count_least(const struct library *l, const uint32_t *v)
{
	return l->lookup(tiny, tiny_len, v[0], v[1], v[2], v[3], v[4], v[5]).reads + l->image_lookup(tiny_image, tiny_image_len, v[0], v[1], v[2], v[3], v[4], v[5]).reads;
}

/* Each call over the whole store once, of the rule in the middle where it is of one. */
APART static uint32_t count_calls(const struct library *l)
{
	const struct rule *r = &rules[rule_count / 2];
	uint32_t wrong = l->check(words, len);

	wrong |= l->worst(words, len).answer;
	wrong |= l->image_words(words, len).answer;
	wrong |= l->freeze(words, len, image, IMAGE_MOST);
	wrong |= l->image_check(image, image_len);
	wrong |= l->image_worst(image, image_len).answer;
	if (l->carry)
		wrong |= l->carry(words, len, carried, REAMSTORK_WORDS(words[0]), words[0]);
	if (rule_count > 0) {
		wrong |= l->dead(words, len, r->number).answer;
		wrong |= l->delete(words, len, r->number);
		wrong |= l->insert(words, len, r->number, r->action, r->low, r->high);
	}
	return wrong;
}

static int counts(const char *file)
{
	reamstork_most most, blocks;

	load_sample(file);
	prepare();
	most = plain_worst(words, len);
	blocks = plain_image_worst(image, image_len);
	for (int which = 0; which < 2; which++) {
		const struct library *l = &both[which];

		sink = count_packets(l);
		if (count_most(l, most.value, blocks.value) != most.reads + blocks.reads)
			fail("the worst packets read otherwise");
		if (count_least(l, most.value) != 2 * REAMSTORK_FIELDS)
			fail("a packet reads more than the default alone");
		if (count_calls(l) != 0)
			fail("a call is refused");
	}
	/* read by counts.awk: reads of the worst packet, then its blocks */
	printf("%u %u %u %u\n", rule_count, cell_count, most.reads, blocks.reads);
	return 0;
}

APART static uint32_t count_list(const struct library *l)
{
	return l->check(words, len) | l->edit_list(words, len, edits_of_list, REAMSTORK_LIST_MAX).answer;
}

static int list_counts(const char *file)
{
	load_sample(file);
	full_list(edits_of_list, rules, rule_count);
	for (int which = 0; which < 2; which++)
		if ((count_list(&both[which]) | one_by_one(&both[which])) != 0)
			fail("an edit is refused");
	return 0;
}

int main(int argc, char **argv)
{
	memset(other, 1, sizeof other);
	if (argc == 4 && strcmp(argv[1], "draw") == 0) {
		keep_sample(argv[2], argv[3]);
		return 0;
	}
	if (argc == 3 && strcmp(argv[1], "counts") == 0)
		return counts(argv[2]);
	if (argc == 3 && strcmp(argv[1], "list") == 0)
		return list_counts(argv[2]);
	if (argc > 2 && strcmp(argv[1], "lists") == 0) {
		for (int i = 2; i < argc; i++)
			list_times(argv[i]);
		return 0;
	}
	if (argc > 2 && strcmp(argv[1], "growth") == 0) {
		for (int i = 2; i < argc; i++)
			grow(argv[i]);
		return 0;
	}
	if (argc > 2 && strcmp(argv[1], "lookups") == 0) {
		for (int i = 2; i < argc; i++)
			times(argv[i], 1);
		return 0;
	}
	for (int i = 1; i < argc; i++)
		times(argv[i], 0);
	return 0;
}
