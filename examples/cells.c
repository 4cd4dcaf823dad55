/*
 * cells.c - how many cells a table takes
 *
 * Loads tables of several shapes into the largest store that there is and
 * prints the cells that each takes; "more" where its tree takes more than
 * 65,536.  To find what your own table takes, do the same with its rules.
 * It prints cells.expected.
 *
 *     cc -std=c11 -Iinclude examples/cells.c target/staticlib/libreamstork.a -o cells
 */
#include <inttypes.h>
#include <stdio.h>

#include "reamstork.h"

static uint32_t store[REAMSTORK_WORDS(REAMSTORK_CELLS_MAX)];
static const size_t len = sizeof store / sizeof store[0];

struct rule { uint32_t low[REAMSTORK_FIELDS], high[REAMSTORK_FIELDS]; };

static const uint32_t tops[REAMSTORK_FIELDS] = {
	[REAMSTORK_DESTINATION] = REAMSTORK_TOP_ADDRESS,
	[REAMSTORK_SOURCE] = REAMSTORK_TOP_ADDRESS,
	[REAMSTORK_PROTOCOL] = REAMSTORK_TOP_PROTOCOL,
	[REAMSTORK_DESTINATION_PORT] = REAMSTORK_TOP_PORT,
	[REAMSTORK_SOURCE_PORT] = REAMSTORK_TOP_PORT,
	[REAMSTORK_PORTLESS] = REAMSTORK_TOP_PORTLESS,
};

static void set(struct rule *r, int field, uint32_t low, uint32_t high)
{
	r->low[field] = low;
	r->high[field] = high;
}

/* One host, 10.0.0.1 and up. */
static void host(struct rule *r, uint32_t i)
{
	set(r, REAMSTORK_DESTINATION, 0x0a000001 + 2 * i, 0x0a000001 + 2 * i);
}

/* One UDP port, from 5000 up: so of packets with ports alone. */
static void port(struct rule *r, uint32_t i)
{
	set(r, REAMSTORK_PROTOCOL, 17, 17);
	set(r, REAMSTORK_DESTINATION_PORT, 5000 + 2 * i, 5000 + 2 * i);
	set(r, REAMSTORK_PORTLESS, 0, 0);
}

/* A host and a port of its own. */
static void host_and_port(struct rule *r, uint32_t i)
{
	host(r, i);
	port(r, i);
}

/* The same, from one network. */
static void host_port_from(struct rule *r, uint32_t i)
{
	host_and_port(r, i);
	set(r, REAMSTORK_SOURCE, 0xc0a80100, 0xc0a801ff);
}

/* One host's packets without ports, such as ICMP. */
static void host_portless(struct rule *r, uint32_t i)
{
	host(r, i);
	set(r, REAMSTORK_PORTLESS, 1, 1);
}

/* The even ones name a host, the odd ones a port on every host. */
static void host_or_port(struct rule *r, uint32_t i)
{
	(i % 2 ? port : host)(r, i / 2);
}

/*
 * All overlap with all in the first fields, and no two ends are the same.
 * For a few hundred rules the protocol has too few values: before that the
 * cells are too few.
 * Where ports are among these fields, packets with ports alone are asked
 * for, by all rules alike.
 */
static int wide;

static void overlap(struct rule *r, uint32_t i)
{
	for (int f = 0; f < wide; f++)
		set(r, f, 1 + i, (f == REAMSTORK_PROTOCOL ? 100 : 1000) + i);
	if (wide > REAMSTORK_DESTINATION_PORT)
		set(r, REAMSTORK_PORTLESS, 0, 0);
}

/* The numbers of rules for which the cells are printed. */
static const uint32_t columns[] = { 1, 2, 4, 8, 9, 10, 16, 32, 64, 128, 256, REAMSTORK_RULES_MAX };

/* Each table is the one before it and more rules. */
static void row(const char *name, void (*rule)(struct rule *, uint32_t))
{
	uint32_t answer = reamstork_start(store, len, REAMSTORK_CELLS_MAX), i = 0;

	printf("%-40s", name);
	for (size_t k = 0; k < sizeof columns / sizeof columns[0]; k++) {
		for (; i < columns[k] && answer == REAMSTORK_DONE; i++) {
			struct rule r = { { 0 }, { 0 } };

			for (int f = 0; f < REAMSTORK_FIELDS; f++)
				set(&r, f, 0, tops[f]);
			rule(&r, i);
			answer = reamstork_insert(store, len, i, 0, r.low, r.high);
		}
		if (answer == REAMSTORK_DONE)
			printf("%7" PRIu32, reamstork_cells(store, len).cells);
		else
			printf("%7s", answer == REAMSTORK_NO_ROOM ? "more" : reamstork_answer(answer));
	}
	printf("\n");
}

int main(void)
{
	char name[64];

	printf("%-40s", "rules");
	for (size_t k = 0; k < sizeof columns / sizeof columns[0]; k++)
		printf("%7" PRIu32, columns[k]);
	printf("\n");
	row("one host each", host);
	row("one host and UDP port each", host_and_port);
	row("the same, from one network", host_port_from);
	row("one host each, packets without ports", host_portless);
	row("one UDP port each, on any host", port);
	row("half of them a host, half a port", host_or_port);
	for (wide = 1; wide <= REAMSTORK_SOURCE_PORT + 1; wide++) {
		snprintf(name, sizeof name, "overlapping in %d field%s", wide, wide > 1 ? "s" : "");
		row(name, overlap);
	}
	return 0;
}
