/*
 * plot.c - packets by reads, as a drawing
 *
 * One bar for each count of reads, from 6, the least of any table, to the
 * worst of this one, which a line marks.
 */
#include <inttypes.h>

#include "tool.h"

enum { WIDTH = 800, HEIGHT = 400, LEFT = 90, RIGHT = 30, TOP = 50, BOTTOM = 60, TICKS = 10 };

/* The least of 1, 2, 5, 10, 20, 50 and so on that parts a length into at most TICKS steps. */
static uint64_t step_of(uint64_t length)
{
	static const uint64_t factors[] = { 2, 5, 10 };
	uint64_t ten = 1, step = 1;

	for (int i = 0; length / step >= TICKS; i++) {
		step = ten * factors[i % 3];
		if (i % 3 == 2)
			ten *= 10;
	}
	return step;
}

void write_plot(const char *path, const uint64_t *packets, uint32_t worst)
{
	const uint32_t least = REAMSTORK_FIELDS;	/* each field reads one cell or more */
	const double across = WIDTH - LEFT - RIGHT, up = HEIGHT - TOP - BOTTOM, floor = HEIGHT - BOTTOM;
	const double wide = across / (worst - least + 1), bar = wide > 1.25 ? wide * 0.8 : 1;
	uint64_t most = 1, step;
	FILE *to = begin_file(path);

	for (uint32_t reads = least; reads <= worst; reads++)
		if (packets[reads] > most)
			most = packets[reads];
	fprintf(to, "<svg xmlns=\"http://www.w3.org/2000/svg\" viewBox=\"0 0 %d %d\" "
		"font-family=\"sans-serif\" font-size=\"13\">\n", WIDTH, HEIGHT);
	fprintf(to, "<title>Packets by reads</title>\n");
	fprintf(to, "<rect width=\"%d\" height=\"%d\" fill=\"white\"/>\n", WIDTH, HEIGHT);
	step = step_of(most);
	for (uint64_t at = 0; at <= most; at += step) {
		double y = floor - up * (double)at / (double)most;

		fprintf(to, "<path d=\"M%d %.2fH%d\" stroke=\"#ddd\"/>", LEFT, y, WIDTH - RIGHT);
		fprintf(to, "<text x=\"%d\" y=\"%.2f\" text-anchor=\"end\">%" PRIu64 "</text>\n",
			LEFT - 8, y + 4, at);
	}
	for (uint32_t reads = least; reads <= worst; reads++) {
		double high = up * (double)packets[reads] / (double)most;

		if (packets[reads] == 0)
			continue;
		fprintf(to, "<rect x=\"%.2f\" y=\"%.2f\" width=\"%.2f\" height=\"%.2f\" fill=\"#2b6cb0\">",
			LEFT + wide * (reads - least + 0.5) - bar / 2, floor - high, bar, high);
		fprintf(to, "<title>%u reads: %" PRIu64 " packets</title></rect>\n",
			(unsigned)reads, packets[reads]);
	}
	step = step_of(worst - least + 1);
	for (uint64_t reads = (least + step - 1) / step * step; reads <= worst; reads += step)
		fprintf(to, "<text x=\"%.2f\" y=\"%.2f\" text-anchor=\"middle\">%" PRIu64 "</text>\n",
			LEFT + wide * ((double)(reads - least) + 0.5), floor + 18, reads);
	fprintf(to, "<path d=\"M%d %dV%.0fH%d\" fill=\"none\" stroke=\"black\"/>\n",
		LEFT, TOP, floor, WIDTH - RIGHT);
	fprintf(to, "<path d=\"M%.2f %dV%.0f\" stroke=\"#c53030\" stroke-width=\"2\" "
		"stroke-dasharray=\"6 4\"/>\n", LEFT + wide * (worst - least + 0.5), TOP, floor);
	fprintf(to, "<text x=\"%d\" y=\"%d\" text-anchor=\"end\" fill=\"#c53030\">"
		"worst of the table: %u reads</text>\n", WIDTH - RIGHT, TOP - 12, (unsigned)worst);
	fprintf(to, "<text x=\"%.0f\" y=\"%d\" text-anchor=\"middle\">reads</text>\n",
		LEFT + across / 2, HEIGHT - 14);
	fprintf(to, "<text x=\"20\" y=\"%.0f\" text-anchor=\"middle\" transform=\"rotate(-90 20 %.0f)\">"
		"packets</text>\n</svg>\n", TOP + up / 2, TOP + up / 2);
	end_file();
}
