/*
 * stack.c - the stack that each call uses
 *
 * Each call runs on a painted stack of its own, over a table of 64 rules
 * in a small store and one of 512 in a large store, both of 65,536 cells.
 * What has lost its paint was used: the bytes
 * from the caller's frame down to the lowest changed one, the caller's
 * arguments among them.  Room that a call reserves at its very deepest and
 * never writes keeps its paint and is not seen.
 */
#define _XOPEN_SOURCE 600
#include <stdio.h>
#include <string.h>
#include <ucontext.h>

#include "tables.h"

enum { CELLS = 65536, STACK = 1 << 20 };

static uint32_t words[REAMSTORK_WORDS(CELLS)], fresh[REAMSTORK_WORDS(1920)], carried[REAMSTORK_WORDS(CELLS)];
static size_t len;
static uint32_t image[REAMSTORK_IMAGE_WORDS_MOST(CELLS)];
static size_t image_len;
static struct rule rules[REAMSTORK_RULES_MAX];
static uint32_t rule_count;
static reamstork_edit edits[REAMSTORK_LIST_MAX];
static uint32_t values[REAMSTORK_FIELDS];
static uint8_t packet[28];
static reamstork_tallies tallies;
static uint32_t answer;

static _Alignas(64) uint8_t stack[STACK];
static ucontext_t outside, inside;
static void (*call)(void);
static uint8_t paint;
static size_t left;

/* Here the stack is the painted one.  Looks before anything else is called. */
static void run(void)
{
	const volatile uint8_t *p = stack;

	call();
	while (*p == paint)
		p++;
	left = (size_t)(p - stack);
	swapcontext(&inside, &outside);
}

static size_t used_painted(void (*f)(void), uint8_t colour)
{
	paint = colour;
	memset(stack, colour, sizeof stack);
	call = f;
	getcontext(&inside);
	inside.uc_stack.ss_sp = stack;
	inside.uc_stack.ss_size = sizeof stack;
	inside.uc_link = NULL;
	makecontext(&inside, run, 0);
	swapcontext(&outside, &inside);
	return sizeof stack - left;
}

/* Twice, since a call may write what looks like paint. */
static size_t used(void (*f)(void))
{
	size_t a = used_painted(f, 0xa5), b = used_painted(f, 0x3c);

	return a > b ? a : b;
}

static void nothing(void)
{
}

static void start(void)
{
	answer |= reamstork_start(fresh, REAMSTORK_WORDS(1920), 1920);
}

static void start_with(void)
{
	answer |= reamstork_start_with(fresh, REAMSTORK_WORDS(1920), 1920, 7);
}

static void carry(void)
{
	answer |= reamstork_carry(words, len, carried, REAMSTORK_WORDS(CELLS), CELLS);
}

static void take_out(void)
{
	answer |= reamstork_delete(words, len, rules[20].number);
}

static void put_in(void)
{
	const struct rule *r = &rules[20];

	answer |= reamstork_insert(words, len, r->number, r->action, r->low, r->high);
}

static void edit_list(void)
{
	answer |= reamstork_edit_list(words, len, edits, REAMSTORK_LIST_MAX).answer;
}

static void check(void)
{
	answer |= reamstork_check(words, len);
}

static void read_one(void)
{
	answer |= reamstork_read(words, len, rules[20].number).answer;
}

static void rule_at(void)
{
	answer |= reamstork_rule_at(words, len, 21).answer;
}

static void dead(void)
{
	answer |= reamstork_dead(words, len, rules[20].number).answer;
}

static void worst(void)
{
	answer |= reamstork_worst(words, len).answer;
}

static void cells(void)
{
	answer |= reamstork_cells(words, len).answer;
}

static void lookup(void)
{
	answer |= reamstork_lookup(words, len, values[0], values[1], values[2], values[3], values[4], values[5]).answer;
}

static void lookup_packet(void)
{
	answer |= reamstork_lookup_packet(words, len, packet, sizeof packet).answer;
}

static void lookup_packet_tally(void)
{
	answer |= reamstork_lookup_packet_tally(words, len, packet, sizeof packet, &tallies).answer;
}

static void image_words(void)
{
	reamstork_size size = reamstork_image_words(words, len);

	answer |= size.answer;
	image_len = size.words;
}

static void freeze(void)
{
	answer |= reamstork_freeze(words, len, image, image_len);
}

static void image_check(void)
{
	answer |= reamstork_image_check(image, image_len);
}

static void image_worst(void)
{
	answer |= reamstork_image_worst(image, image_len).answer;
}

static void image_lookup(void)
{
	answer |= reamstork_image_lookup(image, image_len, values[0], values[1], values[2], values[3], values[4], values[5]).answer;
}

static void image_lookup_packet(void)
{
	answer |= reamstork_image_lookup_packet(image, image_len, packet, sizeof packet).answer;
}

static void image_lookup_packet_tally(void)
{
	answer |= reamstork_image_lookup_packet_tally(image, image_len, packet, sizeof packet, &tallies).answer;
}

static void tallies_clear(void)
{
	reamstork_tallies_clear(&tallies);
}

static void scan(void)
{
	static reamstork_record records[REAMSTORK_RULES_MAX];

	answer |= reamstork_scan(records, rule_count, 1, values[0], values[1], values[2], values[3], values[4], values[5]).answer;
}

static void prefix(void)
{
	answer |= reamstork_prefix(0x0a000000, 24).answer;
}

static uint8_t capture[REAMSTORK_RECORD_HEADER + REAMSTORK_RECORD_MOST];

static void capture_begin(void)
{
	answer |= reamstork_capture_begin(capture, sizeof capture).answer;
}

static void capture_add(void)
{
	static uint8_t data[REAMSTORK_RECORD_MOST];

	answer |= reamstork_capture_add(capture, sizeof capture, 1, 2, 3, data, sizeof data).answer;
}

/* The greater use of one call and the other, which undoes it. */
static void in_turn(size_t *a, size_t *b, void (*f)(void), void (*g)(void))
{
	static const uint8_t colours[2] = { 0xa5, 0x3c };

	*a = *b = 0;
	for (int i = 0; i < 2; i++) {
		size_t x = used_painted(f, colours[i]), y = used_painted(g, colours[i]);

		*a = x > *a ? x : *a;
		*b = y > *b ? y : *b;
	}
}

static size_t base, most;

static void say(const char *name, size_t bytes)
{
	bytes -= base;
	most = bytes > most ? bytes : most;
	printf("  %-36s %8zu bytes\n", name, bytes);
}

/* All calls over a table of n rules that overlap and whose tree takes at most so many cells. */
static void all(int small, uint32_t n, uint32_t budget)
{
	size_t a, b;

	seed = 20261115;
	most = 0;
	rule_count = n;
	len = draw_table(words, small, CELLS, rules, n, budget, 1);
	full_list(edits, rules, n);
	draw_values(values, rules, n);
	write_packet(packet, values);
	reamstork_tallies_clear(&tallies);
	printf("%u rules in a %s store, c = %d, %u cells in use\n", n, small ? "small" : "large", CELLS, reamstork_cells(words, len).cells);
	in_turn(&a, &b, take_out, put_in);
	say("reamstork_start", used(start));
	say("reamstork_start_with", used(start_with));
	say("reamstork_carry", used(carry));
	say("reamstork_insert", b);
	say("reamstork_delete", a);
	say("reamstork_edit_list", used(edit_list));
	say("reamstork_check", used(check));
	say("reamstork_read", used(read_one));
	say("reamstork_rule_at", used(rule_at));
	say("reamstork_cells", used(cells));
	say("reamstork_dead", used(dead));
	say("reamstork_worst", used(worst));
	say("reamstork_image_words", used(image_words));
	say("reamstork_freeze", used(freeze));
	say("reamstork_image_check", used(image_check));
	say("reamstork_image_worst", used(image_worst));
	printf("  %-36s %8zu bytes\n", "the most of these", most);
	most = 0;
	say("reamstork_lookup", used(lookup));
	say("reamstork_lookup_packet", used(lookup_packet));
	say("reamstork_lookup_packet_tally", used(lookup_packet_tally));
	say("reamstork_image_lookup", used(image_lookup));
	say("reamstork_image_lookup_packet", used(image_lookup_packet));
	say("reamstork_image_lookup_packet_tally", used(image_lookup_packet_tally));
	say("reamstork_tallies_clear", used(tallies_clear));
	say("reamstork_scan", used(scan));
	say("reamstork_prefix", used(prefix));
	say("reamstork_capture_begin", used(capture_begin));
	say("reamstork_capture_add", used(capture_add));
	printf("  %-36s %8zu bytes\n\n", "the most of these", most);
}

int main(void)
{
	base = used(nothing);
	all(1, REAMSTORK_SMALL_RULES_MAX, 60000);
	all(0, REAMSTORK_RULES_MAX, 65024);
	if (answer != 0) {
		printf("a call was refused: %u\n", answer);
		return 1;
	}
	return 0;
}
