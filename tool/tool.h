/*
 * tool.h - what the files of the command reamstork share
 *
 * Nothing is decided here: the tool reads files, calls the library and
 * prints what it answers.  Whatever cannot go on ends the program, through
 * stop, so that no caller has to look.
 */
#ifndef TOOL_H
#define TOOL_H

#include <stdbool.h>
#include <stddef.h>
#include <stdint.h>
#include <stdio.h>

#include "reamstork.h"

/* The exit statuses: done, a refusal of the library, bad use or input. */
enum status { STATUS_DONE, STATUS_REFUSED, STATUS_BAD };

/* Says what is wrong on standard error, removes a file that is half written,
 * and ends the program. */
_Noreturn void stop(enum status status, const char *format, ...)
	__attribute__((format(printf, 2, 3)));

/* An answer of the library in a message: its number and its text. */
#define ANSWER "%u, %s"
#define ANSWER_OF(answer) (unsigned)(answer), reamstork_answer(answer)

/* Zeroed memory for so many things of that size; ends the program where there is none. */
void *room(size_t count, size_t size);

/* ---- file.c: files whole, and stores in them ---- */

struct bytes { uint8_t *at; size_t count; };

/* All bytes of a file that has at most so many; `kind` names what it should be. */
struct bytes read_file(const char *path, size_t most, const char *kind);

/* Ends the program where a file that is to be written is one that is read. */
void keep_apart(const char *from, const char *to);

/* A file that is written under another name and gets its own when it is whole. */
FILE *begin_file(const char *path);
void end_file(void);

struct store { uint32_t *words; size_t len; };

/* A store that passes the check, from a file of its words. */
struct store read_store(const char *path);

/* The same from a table or a store, told apart by the first bytes. */
struct store read_table_or_store(const char *path);

/* The words of a store of c cells, all zero. */
struct store room_for_store(uint32_t c);

void write_store(const char *path, struct store store);

/* How many rules a store holds besides the default. */
uint32_t rules_in(struct store store);

/* ---- text.c: a table as text ---- */

/* The greatest size of a table's text: 512 rules on lines of 4,096 bytes, and as much again for
 * comments. */
#define TEXT_MOST 4194304u

/* The number that some digits say, up to 4,294,967,295; false where they say none. */
bool number_in(const char *text, size_t count, uint32_t *number);

/* The store of a table's text: of so many cells, or where cells is null of as many as it takes. */
struct store store_of_text(const char *path, struct bytes text, const uint32_t *cells);

/* Six values in the columns of a table. */
void print_values(FILE *to, const uint32_t value[REAMSTORK_FIELDS]);

/* The whole table of a store as text. */
void print_table(FILE *to, struct store store);

/* ---- capture.c: the packets of a capture ---- */

struct capture;

struct packet {
	const uint8_t *data;		/* from the IPv4 header on; no byte where the record has no IPv4 */
	size_t count;
	uint64_t place;			/* of its record, from 1 */
	int64_t seconds;
	uint32_t millionths;
	uint32_t original;		/* its length before a capture cut it, without the link's header */
};

struct capture *open_capture(const char *path);

/* The next packet.  False at the end: of a sound file, or where the rest cannot be read. */
bool next_packet(struct capture *capture, struct packet *packet);

/* How it ended: null where the file was sound, else what is wrong with the rest of it. */
const char *capture_fault(const struct capture *capture);

/* How many records had no IPv4 packet behind the link's header. */
uint64_t without_ipv4(const struct capture *capture);

void close_capture(struct capture *capture);

/* ---- plot.c ---- */

/* Bars of packets by reads: packets[r] of them took r reads, for r up to the worst of the table. */
void write_plot(const char *path, const uint64_t *packets, uint32_t worst);

#endif
