/* Reads what valgrind's lackey prints of a program's loads and stores, and writes those of the calls as numbers of 64 bits: the address
 * times 65,536, the size times 256, and 1 for a store. A call begins and ends with a store of 4 bytes to the address that is the one
 * argument, in hexadecimal as lackey prints it, and all ones stand where it begins. What is outside of calls, and instructions, are left
 * out. A load that is also a store (M) is both.
 *
 * Lackey writes line by line. A reader that waits for each would have the system change between the two for each, so this one waits until
 * much has come.
 */
#define _POSIX_C_SOURCE 200809L
#include <stdint.h>
#include <stdio.h>
#include <stdlib.h>
#include <string.h>
#include <time.h>
#include <unistd.h>

static void put(uint64_t number)
{
    fwrite(&number, sizeof number, 1, stdout);
}

static char mark[64];
static int inside;

static void one(const char *line)
{
    char what = line[1], *end;
    uint64_t number;

    if (line[0] != ' ')
        return;
    if (what == 'S' && !strncmp(line + 3, mark, strlen(mark))) {
        inside = !inside;
        if (inside)
            put(UINT64_MAX);
        return;
    }
    if (!inside)
        return;
    number = strtoull(line + 3, &end, 16) << 16;
    number |= strtoul(end + 1, NULL, 10) << 8;
    if (what == 'L' || what == 'M')
        put(number);
    if (what == 'S' || what == 'M')
        put(number | 1);
}

int main(int count, char **words)
{
    static char lines[1 << 20];
    const struct timespec moment = {0, 2000000};
    size_t held = 0;
    ssize_t more;

    if (count != 2 || snprintf(mark, sizeof mark, "%s,4\n", words[1]) >= (int)sizeof mark)
        return 2;
    while ((more = read(0, lines + held, sizeof lines - 1 - held)) > 0) {
        char *line = lines, *end;

        held += (size_t)more;
        lines[held] = 0;
        while ((end = strchr(line, '\n'))) {
            one(line);
            line = end + 1;
        }
        held -= (size_t)(line - lines);
        memmove(lines, line, held);
        if (held == sizeof lines - 1)
            return 1;
        if (more < 1 << 15)
            nanosleep(&moment, NULL);
    }
    return more < 0 || held || fflush(stdout) ? 1 : 0;
}
