/*
 * gateway.c - the firmware's loop, in small
 *
 * Loads a table of rules into a static store, lists what the store
 * holds, deletes the rules that never win, says what the worst packet
 * takes, freezes the table, decides frames from the store and from the
 * image, and counts them by action and by rule.  No heap and no input: it
 * prints gateway.expected.
 *
 * On an x86-64 machine, after `make lib`, in the top folder:
 *
 *     cc -std=c11 -Iinclude examples/gateway.c target/staticlib/libreamstork.a -o gateway
 *
 * On an Arm machine, after `make lib MACHINE=aarch64`:
 *
 *     cc -std=c11 -Iinclude examples/gateway.c target/aarch64/libreamstork.a -o gateway
 */
#include <inttypes.h>
#include <stdio.h>

#include "reamstork.h"

enum action { DROP, FORWARD, QUEUE_POSITION, QUEUE_SERVICE, ACTIONS };

static const char *const action_names[ACTIONS] = { "drop", "forward", "queue position", "queue service" };

#define IP(a, b, c, d) ((uint32_t)(a) << 24 | (uint32_t)(b) << 16 | (uint32_t)(c) << 8 | (uint32_t)(d))
#define ANY_PROTOCOL 0, REAMSTORK_TOP_PROTOCOL
#define ANY_PORT 0, REAMSTORK_TOP_PORT

/* What a rule asks in field 6.  One that names ports asks for packets with ports. */
#define WITH_PORTS 0, 0
#define WITHOUT_PORTS 1, 1
#define ANY_PACKET 0, REAMSTORK_TOP_PORTLESS

/* Destination and source as prefixes, then the other ranges but the source port. */
static const struct {
	uint32_t number, action;
	uint32_t to, to_length, from, from_length, protocol_low, protocol_high, port_low, port_high, portless_low, portless_high;
} table[] = {
	{ 10, QUEUE_POSITION, IP(10,0,0,0), 24, IP(10,0,8,0), 22, 17, 17, 5000, 5009, WITH_PORTS },
	{ 11, QUEUE_POSITION, IP(10,0,0,0), 24, IP(10,0,8,0), 22, 17, 17, ANY_PORT, WITHOUT_PORTS },	/* later fragments of UDP */
	{ 20, QUEUE_SERVICE, IP(10,0,0,0), 25, IP(192,168,1,0), 24, 6, 6, 22, 22, WITH_PORTS },
	{ 30, DROP, IP(10,0,0,0), 8, IP(192,168,0,0), 16, ANY_PROTOCOL, ANY_PORT, ANY_PACKET },
	{ 35, QUEUE_SERVICE, IP(10,0,0,0), 24, IP(192,168,1,0), 24, 6, 6, 80, 80, WITH_PORTS },	/* behind 30: never wins */
	{ 40, DROP, IP(172,16,0,0), 12, 0, 0, ANY_PROTOCOL, 0, 1023, WITH_PORTS },	/* ICMP is not caught by a port 0 */
	{ 50, DROP, IP(172,16,0,0), 12, 0, 0, ANY_PROTOCOL, 0, 1023, ANY_PACKET },	/* ports of packets without ports: refused by 2 */
	{ 60, DROP, IP(10,0,0,1), 24, 0, 0, ANY_PROTOCOL, ANY_PORT, ANY_PACKET },	/* no prefix: refused by 10 */
	{ 20, DROP, 0, 0, 0, 0, ANY_PROTOCOL, ANY_PORT, ANY_PACKET },			/* number taken: refused by 3 */
};

/* Frames behind the link header: IPv4 header, then the ports. */
static const struct {
	size_t len;
	uint8_t bytes[28];
} frames[] = {
	{ 28, { 0x45,0,0,28, 0,1,0x40,0, 64,17,0,0, 10,0,9,7, 10,0,0,5, 0x9c,0x40,0x13,0x8c, 0,8,0,0 } },	/* UDP, port 5004 */
	{ 28, { 0x45,0,0,28, 0,2,0x40,0, 64,17,0,0, 10,0,9,7, 10,0,0,5, 0x9c,0x40,0x13,0x92, 0,8,0,0 } },	/* UDP, port 5010 */
	{ 24, { 0x45,0,0,24, 0,3,0x40,0, 64,6,0,0, 192,168,1,9, 10,0,0,5, 0x9c,0x40,0,22 } },		/* TCP, port 22 */
	{ 24, { 0x45,0,0,24, 0,4,0x40,0, 64,6,0,0, 192,168,2,9, 10,0,0,5, 0x9c,0x40,0,22 } },		/* another network */
	{ 24, { 0x45,0,0,24, 0,5,0,100, 64,17,0,0, 10,0,9,7, 10,0,0,5, 1,2,3,4 } },			/* later fragment */
	{ 20, { 0x45,0,0,20, 0,6,0x40,0, 64,1,0,0, 10,0,9,7, 172,16,0,1 } },				/* ICMP */
	{ 24, { 0x45,0,0,24, 0,7,0x40,0, 64,6,0,0, 10,0,9,7, 172,16,0,1, 0x9c,0x40,0,80 } },		/* TCP, port 80 */
	{ 19, { 0x45,0,0,28, 0,8,0x40,0, 64,17,0,0, 10,0,9,7, 10,0,0 } },				/* no whole header */
	{ 24, { 0x60,0,0,24, 0,9,0x40,0, 64,6,0,0, 10,0,9,7, 10,0,0,5, 0,1,0,2 } },			/* not version 4 */
	{ 24, { 0x45,0,0,28, 0,10,0x40,0, 64,17,0,0, 10,0,9,7, 10,0,0,5, 0x9c,0x40,0x13,0x8c } },	/* cut short: 24 bytes of 28 */
};

/*
 * A large store: up to 512 rules.  A gateway that finds a small one of an
 * earlier version, 64 rules in battery-backed memory, carries its table here
 * by reamstork_carry(kept, kept_len, store, store_len, 1920) instead of a
 * start, and edits on.
 */
static uint32_t store[REAMSTORK_WORDS(1920)];
static const size_t store_len = sizeof store / sizeof store[0];
static reamstork_tallies tallies;

/* The table frozen.  At a multiple of 64 bytes each of its blocks is one line of the cache. */
_Alignas(64) static uint32_t image[REAMSTORK_IMAGE_WORDS_MOST(1920)];
static const size_t image_len = sizeof image / sizeof image[0];

static uint32_t load(size_t i)
{
	reamstork_range to = reamstork_prefix(table[i].to, table[i].to_length);
	reamstork_range from = reamstork_prefix(table[i].from, table[i].from_length);
	const uint32_t low[REAMSTORK_FIELDS] = {
		[REAMSTORK_DESTINATION] = to.low,
		[REAMSTORK_SOURCE] = from.low,
		[REAMSTORK_PROTOCOL] = table[i].protocol_low,
		[REAMSTORK_DESTINATION_PORT] = table[i].port_low,
		[REAMSTORK_SOURCE_PORT] = 0,
		[REAMSTORK_PORTLESS] = table[i].portless_low,
	};
	const uint32_t high[REAMSTORK_FIELDS] = {
		[REAMSTORK_DESTINATION] = to.high,
		[REAMSTORK_SOURCE] = from.high,
		[REAMSTORK_PROTOCOL] = table[i].protocol_high,
		[REAMSTORK_DESTINATION_PORT] = table[i].port_high,
		[REAMSTORK_SOURCE_PORT] = REAMSTORK_TOP_PORT,
		[REAMSTORK_PORTLESS] = table[i].portless_high,
	};

	if (to.answer != REAMSTORK_DONE || from.answer != REAMSTORK_DONE)
		return REAMSTORK_BAD_PREFIX;
	return reamstork_insert(store, store_len, table[i].number, table[i].action, low, high);
}

/* The rules of the store, by rising number.  Gives what ended the list. */
static uint32_t list(void)
{
	reamstork_rule r;

	for (uint32_t place = 1; (r = reamstork_rule_at(store, store_len, place)).answer == REAMSTORK_DONE; place++)
		printf("place %" PRIu32 ": rule %" PRIu32 ", %s\n", place, r.number, r.action < ACTIONS ? action_names[r.action] : "unknown action");
	return r.answer;
}

static void address(const char *before, uint32_t a)
{
	printf("%s%" PRIu32 ".%" PRIu32 ".%" PRIu32 ".%" PRIu32, before, a >> 24, a >> 16 & 255, a >> 8 & 255, a & 255);
}

static void record(const char *before, const uint32_t *value)
{
	address(before, value[REAMSTORK_DESTINATION]);
	address(" from ", value[REAMSTORK_SOURCE]);
	printf(", protocol %" PRIu32 ", ports %" PRIu32 " and %" PRIu32 ", portless %" PRIu32 "\n", value[REAMSTORK_PROTOCOL], value[REAMSTORK_DESTINATION_PORT], value[REAMSTORK_SOURCE_PORT], value[REAMSTORK_PORTLESS]);
}

/*
 * Says for each rule the least values for which it wins, and deletes those
 * that never win: no frame is decided otherwise without them.  Behind a
 * deleted rule the next one has its place.  Gives what ended the list.
 */
static uint32_t prune(void)
{
	reamstork_rule r;

	for (uint32_t place = 1; (r = reamstork_rule_at(store, store_len, place)).answer == REAMSTORK_DONE; ) {
		reamstork_life f = reamstork_dead(store, store_len, r.number);

		if (f.answer != REAMSTORK_DONE)
			return f.answer;
		printf("rule %" PRIu32, r.number);
		if (f.dead) {
			printf(" never wins\n");
			if (reamstork_delete(store, store_len, r.number) != REAMSTORK_DONE)
				break;
		} else {
			record(" wins first to ", f.value);
			place++;
		}
	}
	return r.answer;
}

int main(void)
{
	uint32_t counts[ACTIONS] = { 0 }, unreadable = 0, cut = 0, most = 0, blocks = 0, words;
	reamstork_most worst, deepest;

	if (reamstork_start_with(store, store_len, 1920, FORWARD) != REAMSTORK_DONE)
		return 1;
	reamstork_tallies_clear(&tallies);
	for (size_t i = 0; i < sizeof table / sizeof table[0]; i++) {
		uint32_t answer = load(i);

		printf("rule %" PRIu32 ": %" PRIu32 ", %s\n", table[i].number, answer, reamstork_answer(answer));
	}
	if (list() != REAMSTORK_NO_SUCH_NUMBER || prune() != REAMSTORK_NO_SUCH_NUMBER)
		return 1;	/* the store fails the check */
	printf("cells in use: %" PRIu32 "\n", reamstork_cells(store, store_len).cells);

	/*
	 * The sheet's number, for the table as it is now: no frame takes more.
	 * It may be that none takes as many, since values that no header gives
	 * count too: here those of a packet without ports, to port 22.
	 */
	worst = reamstork_worst(store, store_len);
	if (worst.answer != REAMSTORK_DONE)
		return 1;
	printf("worst: %" PRIu32 " reads", worst.reads);
	record(", first to ", worst.value);

	/* Now that no more edits come, the same table for reading alone. */
	if (reamstork_freeze(store, store_len, image, image_len) != REAMSTORK_DONE)
		return 1;
	words = reamstork_image_words(store, store_len).words;
	printf("image: %" PRIu32 " words\n", words);

	/* The sheet's number for frames that are decided by the image, which is told its exact words. */
	deepest = reamstork_image_worst(image, words);
	if (deepest.answer != REAMSTORK_DONE)
		return 1;
	printf("worst: %" PRIu32 " blocks", deepest.reads);
	record(", first to ", deepest.value);

	for (size_t i = 0; i < sizeof frames / sizeof frames[0]; i++) {
		reamstork_found f = reamstork_lookup_packet_tally(store, store_len, frames[i].bytes, frames[i].len, &tallies);
		reamstork_found g = reamstork_image_lookup_packet(image, image_len, frames[i].bytes, frames[i].len);

		if (g.answer != f.answer || g.rule != f.rule || g.action != f.action)
			return 1;	/* the words of one were damaged: both decide alike */
		if (f.answer == REAMSTORK_UNREADABLE)
			unreadable++;	/* not IPv4, or a bad header: dropped */
		else if (f.answer == REAMSTORK_CUT)
			cut++;		/* dropped too, but the header is sound: is the receive buffer too small? */
		else if (f.answer != REAMSTORK_DONE || f.action >= ACTIONS)
			return 1;	/* the words were damaged, load them again; 13 cannot come, the record began clear and no rule was deleted */
		else
			counts[f.action]++;
		if (f.reads > most)
			most = f.reads;
		if (g.reads > blocks)
			blocks = g.reads;
		printf("frame %zu: answer %" PRIu32 ", rule %" PRIu32 ", reads %" PRIu32 ", blocks %" PRIu32 "\n", i + 1, f.answer, f.rule, f.reads, g.reads);
	}
	for (int a = 0; a < ACTIONS; a++)
		printf("%s: %" PRIu32 "\n", action_names[a], counts[a]);
	for (int i = 0; i < REAMSTORK_PLACES; i++)
		if (tallies.key[i] <= REAMSTORK_DEFAULT)
			printf("rule %" PRIu32 ": %" PRIu32 " packets, %" PRIu32 " bytes\n", tallies.key[i], tallies.packets[i], tallies.bytes[i]);
	printf("unreadable: %" PRIu32 "\ncut short: %" PRIu32 "\nmost reads: %" PRIu32 "\nmost blocks: %" PRIu32 "\n", unreadable, cut, most, blocks);
	return most > worst.reads || blocks > deepest.reads;
}
