/*
 * place.c - one call for callgrind, see place.sh
 *
 *     place CALL RULES BELOW
 *
 * The store holds RULES rules by rising number, BELOW of them below a new
 * number, and CALL is
 *
 *     insert   an insert of a rule of that number
 *     wrong    the same with a last high end above its top: refused with 2
 *     read     a read of that number: refused with 4
 *     high     a read of the number 65,536: refused with 1
 *
 * All rules have the same ranges, so check, count, drop and build do the same
 * work wherever the number stands.  Plain C fills the store, so that of the
 * library nothing but the one call is run.  Prints its answer.
 */
#include <stdio.h>
#include <stdlib.h>
#include <string.h>

#include "plain.h"

enum { CELLS = 1920 };

static uint32_t words[REAMSTORK_WORDS(CELLS)];
static const size_t len = REAMSTORK_WORDS(CELLS);
static const uint32_t low[REAMSTORK_FIELDS] = { 0x0a000000, 0, 17, 5000, 0, 0 };
static uint32_t high[REAMSTORK_FIELDS] = { 0x0a0000ff, 4294967295u, 17, 5009, 65535, 0 };

int main(int argc, char **argv)
{
	uint32_t rules, number, answer = 0;

	if (argc != 4)
		return 2;
	rules = (uint32_t)atoi(argv[2]);
	number = 100 * (uint32_t)atoi(argv[3]) + 50;
	answer |= plain_start(words, len, CELLS);
	for (uint32_t i = 1; i <= rules; i++)
		answer |= plain_insert(words, len, 100 * i, 1, low, high);
	if (answer != 0)
		return 1;
	if (strcmp(argv[1], "wrong") == 0)
		high[5] = 2;
	if (strcmp(argv[1], "high") == 0)
		number = 65536;
	if (strcmp(argv[1], "insert") == 0 || strcmp(argv[1], "wrong") == 0)
		answer = reamstork_insert(words, len, number, 1, low, high);
	else
		answer = reamstork_read(words, len, number).answer;
	printf("%u\n", answer);
	return 0;
}
