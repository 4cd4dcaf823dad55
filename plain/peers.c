/*
 * peers.c - a lookup beside DPDK's rte_acl
 *
 * On the same tables and packets, one packet at a time, in one run: the
 * library's lookup in a store, its lookup in the image of that store,
 * rte_acl, and a scan through the list of rules.  All winners are compared
 * before anything is timed.  The four take turns; a figure is the median
 * over the rounds, and a ratio the median of each round's ratio, a time over
 * that of the store's lookup.
 *
 * The tables have prefixes for addresses, so each rule is one rule of
 * rte_acl: prefixes as masks, protocol and portless as bit masks, ports as
 * ranges.  A rule of lesser number has the higher priority, and the default
 * is the rule of the lowest.  Every packet here has ports, and every rule
 * holds packets that have: so rte_acl names the same winners by five fields,
 * without portless, which is how it is mostly used.  Both are measured.
 */
#define _GNU_SOURCE
#include <sched.h>
#include <stdio.h>
#include <stdlib.h>
#include <string.h>
#include <time.h>

#include <rte_acl.h>
#include <rte_eal.h>
#include <rte_errno.h>
#include <rte_lcore.h>
#include <rte_malloc.h>

#include "tables.h"

enum { ROUNDS = 21, PACKETS = 1024, COLD = 24, OTHER = 8 << 20, MANY = 16, RULES = REAMSTORK_RULES_MAX };
enum { IMAGE_MOST = REAMSTORK_IMAGE_WORDS_MOST(65536) };

/* What decides a packet, and the columns of the tables below. */
enum { STORE, IMAGE, ACL_SIX, ACL_FIVE, SCAN, PEERS };

static const char *const names[PEERS] = { "store", "image", "rte_acl", "5 fields", "scan" };

/* A packet's values as rte_acl wants them: one byte, then groups of four; most significant bytes first. */
struct key {
	uint8_t protocol, none[3];
	uint8_t destination[4], source[4], destination_port[2], source_port[2], portless[4];
};

RTE_ACL_RULE_DEF(acl_rule, REAMSTORK_FIELDS);

static _Alignas(64) uint32_t words[REAMSTORK_WORDS(65536)], image[IMAGE_MOST];
static struct rule rules[RULES];
static _Alignas(64) reamstork_record records[RULES];
static uint32_t values[PACKETS][REAMSTORK_FIELDS];
static struct key keys[PACKETS];
static struct acl_rule acl_rules[RULES + 1];
static struct rte_acl_ctx *acl[2];
static _Alignas(64) uint8_t other[OTHER];
static volatile uint32_t sink;
static uint32_t rule_count;
static size_t len, image_len;

static double now(void)
{
	struct timespec t;

	clock_gettime(CLOCK_MONOTONIC, &t);
	return (double)t.tv_sec * 1e9 + (double)t.tv_nsec;
}

static void fail(const char *why)
{
	fprintf(stderr, "peers: %s\n", why);
	exit(1);
}

static void put(uint8_t *b, int size, uint32_t value)
{
	for (int i = 0; i < size; i++)
		b[i] = (uint8_t)(value >> 8 * (size - 1 - i));
}

static void write_key(struct key *k, const uint32_t *v)
{
	memset(k, 0, sizeof *k);
	put(&k->protocol, 1, v[REAMSTORK_PROTOCOL]);
	put(k->destination, 4, v[REAMSTORK_DESTINATION]);
	put(k->source, 4, v[REAMSTORK_SOURCE]);
	put(k->destination_port, 2, v[REAMSTORK_DESTINATION_PORT]);
	put(k->source_port, 2, v[REAMSTORK_SOURCE_PORT]);
	put(k->portless, 4, v[REAMSTORK_PORTLESS]);
}

/* The length of the prefix that a range of addresses is. */
static uint32_t prefix_of(uint32_t low, uint32_t high)
{
	uint32_t length = 32;

	while (length > 0 && low + (uint32_t)(UINT64_C(0xffffffff) >> length) != high)
		length--;
	if (low + (uint32_t)(UINT64_C(0xffffffff) >> length) != high || (low & (high - low)) != 0)
		fail("a range of addresses is no prefix");
	return length;
}

/* A value and its mask: all bits for a single value, none for the full range. */
static void exact(struct rte_acl_field *f, int size, uint32_t low, uint32_t high, uint32_t top)
{
	uint32_t mask = low == high ? (size == 1 ? 0xff : 0xffffffff) : 0;

	if (low != high && (low != 0 || high != top))
		fail("a range is neither one value nor full");
	if (size == 1) {
		f->value.u8 = (uint8_t)(low & mask);
		f->mask_range.u8 = (uint8_t)mask;
	} else {
		f->value.u32 = low & mask;
		f->mask_range.u32 = mask;
	}
}

static void write_rule(struct acl_rule *to, uint32_t number, const uint32_t *low, const uint32_t *high)
{
	memset(to, 0, sizeof *to);
	to->data.category_mask = 1;
	to->data.priority = (int32_t)(65536 - number);
	to->data.userdata = number + 1;
	exact(&to->field[0], 1, low[2], high[2], tops[2]);
	for (int i = 0; i < 2; i++) {
		to->field[1 + i].value.u32 = low[i];
		to->field[1 + i].mask_range.u32 = prefix_of(low[i], high[i]);
		to->field[3 + i].value.u16 = (uint16_t)low[3 + i];
		to->field[3 + i].mask_range.u16 = (uint16_t)high[3 + i];
	}
	exact(&to->field[5], 4, low[5], high[5], tops[5]);
}

/* Hands the rules to rte_acl, of which number skip is left out, and has it build. */
static void build(struct rte_acl_ctx *ctx, uint32_t fields, uint32_t skip)
{
	static const struct rte_acl_field_def defs[REAMSTORK_FIELDS] = {
		{ RTE_ACL_FIELD_TYPE_BITMASK, 1, 0, 0, offsetof(struct key, protocol) },
		{ RTE_ACL_FIELD_TYPE_MASK, 4, 1, 1, offsetof(struct key, destination) },
		{ RTE_ACL_FIELD_TYPE_MASK, 4, 2, 2, offsetof(struct key, source) },
		{ RTE_ACL_FIELD_TYPE_RANGE, 2, 3, 3, offsetof(struct key, destination_port) },
		{ RTE_ACL_FIELD_TYPE_RANGE, 2, 4, 3, offsetof(struct key, source_port) },
		{ RTE_ACL_FIELD_TYPE_BITMASK, 4, 5, 4, offsetof(struct key, portless) },
	};
	struct rte_acl_config config = { .num_categories = 1, .num_fields = fields };

	memcpy(config.defs, defs, sizeof defs);
	for (uint32_t i = 0; i <= rule_count; i++)
		if (i != skip && rte_acl_add_rules(ctx, (const struct rte_acl_rule *)&acl_rules[i], 1) != 0)
			fail("rte_acl takes a rule not");
	if (rte_acl_build(ctx, &config) != 0)
		fail("rte_acl does not build");
}

static struct rte_acl_ctx *create(const char *name)
{
	struct rte_acl_param param = { .name = name, .socket_id = SOCKET_ID_ANY, .rule_size = RTE_ACL_RULE_SZ(REAMSTORK_FIELDS), .max_rule_num = RULES + 1 };
	struct rte_acl_ctx *ctx = rte_acl_create(&param);

	if (!ctx)
		fail("rte_acl has no context");
	return ctx;
}

#define INLINE inline __attribute__((always_inline))

/* The rule's number.  Who decides is a constant wherever this stands, so that it costs nothing. */
static INLINE uint32_t decided(int peer, int i)
{
	const uint32_t *v = values[i];

	if (peer == STORE)
		return reamstork_lookup(words, len, v[0], v[1], v[2], v[3], v[4], v[5]).rule;
	if (peer == IMAGE)
		return reamstork_image_lookup(image, image_len, v[0], v[1], v[2], v[3], v[4], v[5]).rule;
	if (peer == ACL_SIX || peer == ACL_FIVE) {
		const uint8_t *data = (const uint8_t *)&keys[i];
		uint32_t result;

		rte_acl_classify(acl[peer - ACL_SIX], &data, &result, 1, 1);
		return result - 1;
	}
	return reamstork_scan(records, rule_count, REAMSTORK_DEFAULT_ACTION, v[0], v[1], v[2], v[3], v[4], v[5]).rule;
}

static INLINE double warm(int peer)
{
	uint32_t sum = 0;
	double from = now();

	for (int i = 0; i < PACKETS; i++)
		sum += decided(peer, i);
	sink = sum;
	return (now() - from) / PACKETS;
}

/* Decisions after 8 MiB of other reads each: code, tables and values come from far away. */
static INLINE double cold(int peer, uint32_t at)
{
	uint32_t sum = 0;
	double took = 0, empty = now();

	empty = now() - empty;
	for (int i = 0; i < COLD; i++) {
		double from;

		for (size_t j = 0; j < OTHER; j += 64)
			sum += other[j];
		sink = sum;
		from = now();
		sum += decided(peer, (int)((at + i) % PACKETS));
		took += (now() - from - empty) / COLD;
	}
	sink = sum;
	return took;
}

static double warm_peer(int peer, uint32_t at)
{
	(void)at;
	switch (peer) {
	case STORE: return warm(STORE);
	case IMAGE: return warm(IMAGE);
	case ACL_SIX: return warm(ACL_SIX);
	case ACL_FIVE: return warm(ACL_FIVE);
	default: return warm(SCAN);
	}
}

static double cold_peer(int peer, uint32_t at)
{
	switch (peer) {
	case STORE: return cold(STORE, at);
	case IMAGE: return cold(IMAGE, at);
	case ACL_SIX: return cold(ACL_SIX, at);
	case ACL_FIVE: return cold(ACL_FIVE, at);
	default: return cold(SCAN, at);
	}
}

/* Many packets at a time, which is what rte_acl is made for. */
static double many(int which)
{
	uint32_t results[MANY];
	const uint8_t *data[MANY];
	double from = now();

	for (int i = 0; i < PACKETS; i += MANY) {
		for (int j = 0; j < MANY; j++)
			data[j] = (const uint8_t *)&keys[i + j];
		rte_acl_classify(acl[which], data, results, MANY, 1);
		sink = results[0];
	}
	return (now() - from) / PACKETS;
}

static int rising(const void *a, const void *b)
{
	double x = *(const double *)a, y = *(const double *)b;

	return (x > y) - (x < y);
}

static double median_of(double *x, int n)
{
	qsort(x, (size_t)n, sizeof *x, rising);
	return x[n / 2];
}

static double median(double *x)
{
	return median_of(x, ROUNDS);
}

static void measure(const char *name, double (*thing)(int, uint32_t))
{
	double took[PEERS][ROUNDS], ratio[PEERS][ROUNDS];

	for (int i = -1; i < ROUNDS; i++) {
		for (int j = 0; j < PEERS; j++) {
			int peer = (i + j + PEERS) % PEERS;
			double t = thing(peer, (uint32_t)(i + 1) * COLD);

			if (i >= 0)
				took[peer][i] = t;
		}
		for (int peer = 0; i >= 0 && peer < PEERS; peer++)
			ratio[peer][i] = took[peer][i] / took[STORE][i];
	}
	printf("  %-26s", name);
	for (int peer = 0; peer < PEERS; peer++)
		printf(" %9.1f", median(took[peer]));
	printf("\n  %-26s", "  over the store's");
	for (int peer = 0; peer < PEERS; peer++)
		printf(" %9.2f", median(ratio[peer]));
	printf("\n");
}

static size_t heap(void)
{
	size_t sum = 0;

	for (unsigned i = 0; i < rte_socket_count(); i++) {
		struct rte_malloc_socket_stats s;

		if (rte_malloc_get_socket_stats(rte_socket_id_by_idx(i), &s) == 0)
			sum += s.heap_allocsz_bytes;
	}
	return sum;
}

/* Loads the whole table, in the order in which it was drawn; or takes the rule in the middle out and puts it in again. */
static double load_store(void)
{
	double from = now();
	uint32_t wrong = reamstork_start(words, len, (uint32_t)((len - 8192) / 8));

	for (uint32_t i = 0; i < rule_count; i++)
		wrong |= reamstork_insert(words, len, rules[i].number, rules[i].action, rules[i].low, rules[i].high);
	if (wrong)
		fail("a rule is refused");
	return now() - from;
}

static double edit_store(void)
{
	const struct rule *r = &rules[rule_count / 2];
	double from = now(), took;

	if (reamstork_delete(words, len, r->number) != 0)
		fail("a delete is refused");
	took = now() - from;
	if (reamstork_insert(words, len, r->number, r->action, r->low, r->high) != 0)
		fail("an insert is refused");
	return took;
}

static double freeze(void)
{
	double from = now();

	if (reamstork_freeze(words, len, image, IMAGE_MOST) != 0)
		fail("a freeze is refused");
	return now() - from;
}

/* rte_acl deletes all rules or none: without one of them it is handed the others again. */
static double build_acl(int which, uint32_t skip)
{
	double from = now();

	rte_acl_reset(acl[which]);
	build(acl[which], which == 0 ? 6 : 5, skip);
	return now() - from;
}

/* What it takes to make each from the rules, to take a rule out of it, and the memory. */
static void costs(void)
{
	double load[ROUNDS], edit[ROUNDS], frozen[ROUNDS], made[2][ROUNDS], cut[2][ROUNDS];
	size_t memory[2];
	/* all of a large table is loaded by as many inserts, each of which runs a check */
	int rounds = rule_count > 64 ? 3 : ROUNDS;

	for (int i = 0; i < rounds; i++) {
		load[i] = load_store();
		edit[i] = edit_store();
		frozen[i] = freeze();
		for (int which = 0; which < 2; which++) {
			size_t before;

			cut[which][i] = build_acl(which, rule_count / 2);
			rte_acl_reset(acl[which]);
			before = heap();
			made[which][i] = build_acl(which, UINT32_MAX);
			memory[which] = heap() - before;
		}
	}
	printf("  %-26s %9.1f %9.1f %9.1f %9.1f %9s\n", "all rules loaded, us", median_of(load, rounds) / 1e3, (median_of(load, rounds) + median_of(frozen, rounds)) / 1e3, median_of(made[0], rounds) / 1e3, median_of(made[1], rounds) / 1e3, "-");
	printf("  %-26s %9.1f %9.1f %9.1f %9.1f %9s\n", "one rule deleted, us", median_of(edit, rounds) / 1e3, (median_of(edit, rounds) + median_of(frozen, rounds)) / 1e3, median_of(cut[0], rounds) / 1e3, median_of(cut[1], rounds) / 1e3, "-");
	printf("  %-26s %9zu %9zu %9zu %9zu %9zu\n", "memory, bytes", 4 * len, 4 * image_len, memory[0], memory[1], rule_count * sizeof records[0]);
}

/* Every packet has one winner, whoever is asked. */
static void compare(void)
{
	for (int i = 0; i < PACKETS; i++) {
		const uint32_t *v = values[i];
		uint32_t rule = plain_lookup(words, len, v[0], v[1], v[2], v[3], v[4], v[5]).rule;

		for (int peer = 0; peer < PEERS; peer++) {
			uint32_t other_rule = peer == STORE ? decided(STORE, i) : peer == IMAGE ? decided(IMAGE, i) : peer == ACL_SIX ? decided(ACL_SIX, i) : peer == ACL_FIVE ? decided(ACL_FIVE, i) : decided(SCAN, i);

			if (other_rule != rule) {
				fprintf(stderr, "peers: packet %d, %s: rule %u, and not %u\n", i, names[peer], other_rule, rule);
				exit(1);
			}
		}
	}
}

static void times(uint32_t n, uint32_t c, uint32_t budget, int overlap)
{
	struct rule all = { .number = REAMSTORK_DEFAULT };
	double batch[2][ROUNDS];

	seed = 20261115;
	rule_count = n;
	len = draw_table(words, 0, c, rules, n, budget, overlap);
	for (uint32_t i = 0; i < n; i++) {
		records[i].number = rules[i].number;
		records[i].action = rules[i].action;
		memcpy(records[i].low, rules[i].low, sizeof records[i].low);
		memcpy(records[i].high, rules[i].high, sizeof records[i].high);
		write_rule(&acl_rules[i], rules[i].number, rules[i].low, rules[i].high);
	}
	write_rule(&acl_rules[n], REAMSTORK_DEFAULT, all.low, tops);
	for (int i = 0; i < PACKETS; i++) {
		draw_values(values[i], rules, n);
		write_key(&keys[i], values[i]);
	}
	image_len = reamstork_image_words(words, len).words;
	freeze();
	for (int which = 0; which < 2; which++)
		build_acl(which, UINT32_MAX);
	compare();

	printf("%u rules, c = %u, %u cells in use, image of %u blocks; %d packets, all winners the same\n", n, c, reamstork_cells(words, len).cells, (unsigned)(image_len - 8192) / 16, PACKETS);
	printf("  %-26s", "");
	for (int peer = 0; peer < PEERS; peer++)
		printf(" %9s", names[peer]);
	printf("\n");
	measure("one packet, warm, ns", warm_peer);
	measure("one packet, cold, ns", cold_peer);
	for (int i = 0; i < ROUNDS; i++)
		for (int which = 0; which < 2; which++)
			batch[which][i] = many(which);
	printf("  %-26s %9s %9s %9.1f %9.1f %9s\n", "of 16 at a time, warm, ns", "-", "-", median(batch[0]), median(batch[1]), "-");
	costs();
	compare();
	printf("\n");
	fflush(stdout);
}

/* EAL with no huge pages, no devices and one thread, on a processor that this process may use. */
static void begin(void)
{
	char core[16];
	char *args[] = { "peers", "--no-huge", "--no-shconf", "--no-pci", "--no-telemetry", "--log-level=1", "-m", "256", "-l", core, NULL };
	cpu_set_t before;
	int first = 0;

	if (sched_getaffinity(0, sizeof before, &before) != 0)
		fail("no processor is known");
	while (!CPU_ISSET(first, &before))
		first++;
	snprintf(core, sizeof core, "%d", first);
	if (rte_eal_init((int)(sizeof args / sizeof args[0]) - 1, args) < 0) {
		fprintf(stderr, "peers: DPDK does not begin: %s\n", rte_strerror(rte_errno));
		exit(2);
	}
	sched_setaffinity(0, sizeof before, &before);
	acl[0] = create("six");
	acl[1] = create("five");
}

int main(void)
{
	begin();
	memset(other, 1, sizeof other);
	times(10, 1920, 400, 0);
	times(60, 1920, 1900, 0);
	times(60, 65536, 60000, 1);
	times(400, 65536, 12800, 0);
	times(400, 65536, 60000, 1);
	return 0;
}
