/*
 * capture.c - the packets of a capture, through libpcap
 *
 * libpcap reads the layouts: pcap of either byte order, with millionths or
 * billionths of a second, and pcapng.  Here the link's header is taken off.
 * A record whose link header names another protocol than IPv4, or is cut
 * short, gives no byte, which a lookup refuses as it does any packet of
 * fewer than 20.
 */
#define _DEFAULT_SOURCE			/* POSIX, and the types that libpcap names */
#include <errno.h>
#include <pcap/pcap.h>
#include <stdlib.h>
#include <string.h>
#include <sys/stat.h>
#include <time.h>
#include <unistd.h>

#include "tool.h"

#define TYPE_IPV4 0x0800
#define NETLINK 824			/* a cooked record of this kind has no packet of a network */
#define ASK_CLOCK 1024			/* the clock is asked once for so many packets */

struct capture {
	const char *path;
	pcap_t *file;
	int link;
	uint64_t records, others;
	char fault[PCAP_ERRBUF_SIZE];
	off_t size;			/* 0 where it is not known */
	bool progress, shown;
	struct timespec next;		/* when to say how far it is */
};

static bool taken(int link)
{
	return link == DLT_RAW || link == DLT_IPV4 || link == DLT_EN10MB ||
	       link == DLT_LINUX_SLL || link == DLT_LINUX_SLL2;
}

/* Twice a second. */
static void set_next(struct capture *capture)
{
	clock_gettime(CLOCK_MONOTONIC, &capture->next);
	capture->next.tv_nsec += 500000000;
	if (capture->next.tv_nsec >= 1000000000) {
		capture->next.tv_sec++;
		capture->next.tv_nsec -= 1000000000;
	}
}

struct capture *open_capture(const char *path)
{
	struct capture *capture = room(1, sizeof *capture);
	char why[PCAP_ERRBUF_SIZE] = "";
	struct stat about;
	FILE *file = fopen(path, "rb");

	if (!file || fstat(fileno(file), &about))
		stop(STATUS_BAD, "%s: %s", path, strerror(errno));
	if (S_ISDIR(about.st_mode))
		stop(STATUS_BAD, "%s: a folder, not a capture", path);
	capture->path = path;
	capture->size = S_ISREG(about.st_mode) ? about.st_size : 0;
	capture->file = pcap_fopen_offline(file, why);
	if (!capture->file)
		stop(STATUS_BAD, "%s: no capture: %s", path, why);
	capture->link = pcap_datalink(capture->file);
	if (!taken(capture->link)) {
		const char *name = pcap_datalink_val_to_name(capture->link);

		stop(STATUS_BAD, "%s: link type %s (%d) is not taken: wanted raw IP, Ethernet or Linux cooked",
		     path, name ? name : "without a name", capture->link);
	}
	/* lines on the terminal say themselves how far it is */
	capture->progress = isatty(STDERR_FILENO) && !isatty(STDOUT_FILENO);
	set_next(capture);
	return capture;
}

static void clear_progress(struct capture *capture)
{
	if (capture->shown)
		fputs("\r\033[K", stderr);
	capture->shown = false;
}

static void show_progress(struct capture *capture)
{
	struct timespec now;
	FILE *file;

	clock_gettime(CLOCK_MONOTONIC, &now);
	if (now.tv_sec < capture->next.tv_sec ||
	    (now.tv_sec == capture->next.tv_sec && now.tv_nsec < capture->next.tv_nsec))
		return;
	file = pcap_file(capture->file);
	fprintf(stderr, "\r\033[K%s: %llu packets", capture->path, (unsigned long long)capture->records);
	if (file && capture->size > 0)
		fprintf(stderr, ", %d%%", (int)(100 * (double)ftello(file) / (double)capture->size));
	capture->shown = true;
	set_next(capture);
}

static uint32_t two_bytes(const uint8_t *at)
{
	return (uint32_t)at[0] << 8 | at[1];
}

static bool is_tag(uint32_t type)
{
	return type == 0x8100 || type == 0x88a8 || type == 0x9100;
}

/* How many bytes stand before the IPv4 header; -1 where there is none. */
static int header_length(int link, const uint8_t *data, size_t count)
{
	size_t length, type_at;
	uint32_t type;

	switch (link) {
	case DLT_EN10MB: length = 14; type_at = 12; break;
	case DLT_LINUX_SLL: length = 16; type_at = 14; break;
	case DLT_LINUX_SLL2: length = 20; type_at = 0; break;
	default: return 0;
	}
	if (count < length)
		return -1;
	if ((link == DLT_LINUX_SLL && two_bytes(data + 2) == NETLINK) ||
	    (link == DLT_LINUX_SLL2 && two_bytes(data + 8) == NETLINK))
		return -1;
	type = two_bytes(data + type_at);
	/* a tag is 4 bytes, and its last two are the type of what follows */
	while (is_tag(type)) {
		if (count - length < 4)
			return -1;
		type = two_bytes(data + length + 2);
		length += 4;
	}
	return type == TYPE_IPV4 ? (int)length : -1;
}

bool next_packet(struct capture *capture, struct packet *packet)
{
	struct pcap_pkthdr *header;
	const u_char *data;
	int more, length;

	more = pcap_next_ex(capture->file, &header, &data);
	if (more != 1) {
		if (more == PCAP_ERROR)
			snprintf(capture->fault, sizeof capture->fault, "%s", pcap_geterr(capture->file));
		clear_progress(capture);
		return false;
	}
	capture->records++;
	if (capture->progress && capture->records % ASK_CLOCK == 0)
		show_progress(capture);
	length = header_length(capture->link, data, header->caplen);
	capture->others += length < 0;
	packet->place = capture->records;
	packet->data = length < 0 ? data : data + length;
	packet->count = length < 0 ? 0 : header->caplen - (size_t)length;
	packet->original = header->len;
	if (length > 0)
		packet->original -= header->len < (uint32_t)length ? header->len : (uint32_t)length;
	packet->seconds = header->ts.tv_sec;
	packet->millionths = (uint32_t)header->ts.tv_usec;
	return true;
}

const char *capture_fault(const struct capture *capture)
{
	return capture->fault[0] ? capture->fault : NULL;
}

uint64_t without_ipv4(const struct capture *capture)
{
	return capture->others;
}

void close_capture(struct capture *capture)
{
	pcap_close(capture->file);
	free(capture);
}
