/*
 * tables.h - seeded tables and packets for measuring
 *
 * A table of many rules can need far more cells than any store has, so
 * each rule is drawn until the tree stays within its share of a number of
 * cells: after i of n rules at most i / n of it.  So 400 rules that overlap
 * fit 65,536 cells: about nine of twenty that are drawn do.
 */
#ifndef TABLES_H
#define TABLES_H

#include "plain.h"

static uint64_t seed;

/* A number below n (splitmix64). */
static uint32_t draw(uint32_t n)
{
	uint64_t z = seed += UINT64_C(0x9e3779b97f4a7c15);

	z = (z ^ z >> 30) * UINT64_C(0xbf58476d1ce4e5b9);
	z = (z ^ z >> 27) * UINT64_C(0x94d049bb133111eb);
	return (uint32_t)((z ^ z >> 31) % n);
}

static uint32_t draw_word(void)
{
	return draw(65536) << 16 | draw(65536);
}

static const uint32_t tops[REAMSTORK_FIELDS] = { 4294967295u, 4294967295u, 255, 65535, 65535, 1 };

struct rule {
	uint32_t number, action, low[REAMSTORK_FIELDS], high[REAMSTORK_FIELDS];
};

/* A prefix of that length in a network of 2^bits addresses from base on. */
static void draw_prefix(struct rule *r, int field, uint32_t base, uint32_t bits, uint32_t length)
{
	uint32_t size = (uint32_t)(UINT64_C(0xffffffff) >> length);
	uint32_t in = bits == 32 ? 0xffffffff : (UINT32_C(1) << bits) - 1;

	r->low[field] = (base | (draw_word() & in)) & ~size;
	r->high[field] = r->low[field] | size;
}

/*
 * A rule as a gateway has them: a destination prefix of 8 to 32 within
 * 10.0.0.0, at times a source prefix, TCP or UDP or any protocol, and for
 * these two at times a range of destination ports.  A rule with such a
 * range asks for packets with ports alone, any other for all packets.  With
 * overlap more of them have more of it.
 */
static void draw_rule(struct rule *r, int overlap)
{
	static const uint32_t ports[] = { 22, 53, 80, 123, 443, 502, 5000, 34962 };
	uint32_t many = overlap ? 70 : 10;

	for (int f = 0; f < REAMSTORK_FIELDS; f++) {
		r->low[f] = 0;
		r->high[f] = tops[f];
	}
	draw_prefix(r, 0, 0x0a000000, 24, draw(100) < many ? 8 + draw(overlap ? 8 : 17) : 24 + draw(9));
	if (draw(100) < many)
		draw_prefix(r, 1, 0xc0a80000, 16, 16 + draw(17));
	if (draw(100) < 50) {
		r->low[2] = r->high[2] = draw(3) ? 6 : 17;
		if (draw(100) < 60) {
			r->low[3] = ports[draw(8)];
			r->high[3] = r->low[3] + (draw(2) ? 0 : draw(10));
		}
		if (draw(100) < many / 2) {
			r->low[4] = 1024;
			r->high[4] = 65535;
		}
		if (r->high[3] < 65535 || r->low[3] > 0 || r->low[4] > 0)
			r->high[5] = 0;
	}
}

/*
 * Starts a small store of c cells with the default alone, as it stands in
 * memory that an earlier version wrote: no call starts one.
 */
static void start_small(uint32_t *words, uint32_t c)
{
	uint32_t *row = words + 47, *cells = words + 1024;

	for (size_t i = 0; i < REAMSTORK_SMALL_WORDS(c); i++)
		words[i] = 0;
	words[0] = c;
	row[0] = REAMSTORK_DEFAULT;
	row[1] = REAMSTORK_DEFAULT_ACTION;
	words[1022] = REAMSTORK_FIELDS;
	for (uint32_t k = 0; k < c; k++)
		cells[8 * k + 1] = k < REAMSTORK_FIELDS ? c : k + 1;
	for (uint32_t f = 0; f < REAMSTORK_FIELDS; f++) {
		row[3 + 2 * f] = tops[f];
		cells[8 * f] = tops[f];
		cells[8 * f + 2] = f + 1 < REAMSTORK_FIELDS ? f + 1 : 0;
	}
}

/*
 * Draws n rules into a store of c cells, a small one or a large one; their
 * tree takes at most budget.  Says how many words the store has.
 */
static size_t draw_table(uint32_t *words, int small, uint32_t c, struct rule *rules, uint32_t n, uint32_t budget, int overlap)
{
	size_t len = small ? REAMSTORK_SMALL_WORDS(c) : REAMSTORK_WORDS(c);

	if (small)
		start_small(words, c);
	else
		plain_start(words, len, c);
	for (uint32_t i = 0; i < n; ) {
		struct rule *r = &rules[i];

		draw_rule(r, overlap);
		r->number = draw(65535);
		r->action = draw(8);
		if (plain_insert(words, len, r->number, r->action, r->low, r->high) != 0)
			continue;
		if (plain_cells(words, len).cells > REAMSTORK_CELLS_MIN + budget / n * (i + 1))
			plain_delete(words, len, r->number);
		else
			i++;
	}
	return len;
}

static inline reamstork_edit edit_of(const struct rule *r, uint32_t remove)
{
	reamstork_edit e = { .remove = remove, .number = r->number, .action = r->action };

	for (int f = 0; f < REAMSTORK_FIELDS; f++) {
		e.low[f] = r->low[f];
		e.high[f] = r->high[f];
	}
	return e;
}

/*
 * The longest list of edits, which leaves a table of n rules as it is: a
 * group of up to 16 of them, from all over the table, goes and comes again,
 * and so on until the list is full.
 */
static inline void full_list(reamstork_edit edits[REAMSTORK_LIST_MAX], const struct rule *rules, uint32_t n)
{
	for (uint32_t at = 0, group; at < REAMSTORK_LIST_MAX; at += 2 * group) {
		group = (REAMSTORK_LIST_MAX - at) / 2;
		group = group < n ? group : n;
		for (uint32_t i = 0; i < group; i++) {
			edits[at + i] = edit_of(&rules[i * n / group], 1);
			edits[at + group + i] = edit_of(&rules[i * n / group], 0);
		}
	}
}

/* Values of TCP or UDP packets with ports that some rule holds, or any others within 10.0.0.0. */
static void draw_values(uint32_t v[REAMSTORK_FIELDS], const struct rule *rules, uint32_t n)
{
	struct rule r;

	if (n > 0 && draw(100) < 80)
		r = rules[draw(n)];
	else
		draw_rule(&r, 0);
	for (int f = 0; f < REAMSTORK_FIELDS; f++) {
		uint32_t size = r.high[f] - r.low[f];

		v[f] = r.low[f] + (size == 0xffffffff ? draw_word() : draw(size + 1));
	}
	if (v[2] != 6 && v[2] != 17)
		v[2] = draw(2) ? 6 : 17;
	v[5] = 0;
}

/* The 28 bytes of an IPv4 packet with these values, which has ports. */
static inline void write_packet(uint8_t b[28], const uint32_t v[REAMSTORK_FIELDS])
{
	static const uint8_t header[12] = { 0x45, 0, 0, 28, 0, 0, 0x40, 0, 64, 0, 0, 0 };

	for (int i = 0; i < 12; i++)
		b[i] = header[i];
	b[9] = (uint8_t)v[2];
	for (int i = 0; i < 4; i++) {
		b[12 + i] = (uint8_t)(v[1] >> (24 - 8 * i));
		b[16 + i] = (uint8_t)(v[0] >> (24 - 8 * i));
	}
	for (int i = 0; i < 2; i++) {
		b[20 + i] = (uint8_t)(v[4] >> (8 - 8 * i));
		b[22 + i] = (uint8_t)(v[3] >> (8 - 8 * i));
		b[24 + i] = i ? 8 : 0;
		b[26 + i] = 0;
	}
}

#endif
