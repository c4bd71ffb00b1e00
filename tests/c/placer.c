/* placer [LIST] reads a list, from the file or from standard input, and prints its numbers, a line for K, capacity and used and a line for
 * each table; or which line is refused, and why. placer LIST TEXT ROOM LENGTH.. adds the set of sheets in the file TEXT, of these lengths,
 * 32 at most, to the part of the list, and prints the new list, for which it has so many bytes of room; or what is refused, and why.
 *
 * With a reservation of RESERVED tables for the net NET, both 0 for none, placer reserve LIST RESERVED NET TEXT prints the reservation that
 * is made for the sheet in the file TEXT, placer commit LIST RESERVED NET TEXT ROOM prints the new list, placer withdraw LIST RESERVED NET
 * says that it is withdrawn, and placer add LIST RESERVED NET TEXT ROOM LENGTH.. adds a set beside it.
 *
 * Exit status: 0 where nothing is refused, 1 with a refusal, 2 where nothing can be read. */
#include <inttypes.h>
#include <stdio.h>
#include <stdlib.h>
#include <string.h>

#include "pailinstant.h"

struct bytes {
    uint8_t *start;
    size_t count;
};

/* All that is left of a stream; `start` is NULL where it cannot be read, or is too large. */
static struct bytes read_all(FILE *stream)
{
    struct bytes text = {malloc(1), 0};
    size_t room = 1;
    while (text.start != NULL) {
        uint8_t *larger;
        text.count += fread(text.start + text.count, 1, room - text.count, stream);
        if (text.count < room && !ferror(stream))
            return text;
        larger = ferror(stream) ? NULL : realloc(text.start, 2 * room);
        if (larger == NULL)
            free(text.start);
        text.start = larger;
        room *= 2;
    }
    return text;
}

static void print_numbers(const uint64_t *numbers, size_t count)
{
    size_t i;
    for (i = 0; i < count; i++)
        printf("%" PRIu64 "%c", numbers[i], i + 1 < count ? ' ' : '\n');
}

static void print_list(const uint64_t *numbers)
{
    uint64_t table;
    print_numbers(numbers, 3);
    for (table = 0; table < numbers[2]; table++)
        print_numbers(numbers + 3 + 10 * table, 10);
}

static void print_words(uint32_t number)
{
    uint8_t words[128];
    size_t count = pailinstant_refusal(number, words, sizeof words);
    printf(": %.*s\n", (int)count, (const char *)words);
}

/* The bytes of a file, or of standard input where it has no name; where they cannot be read it says so, and `start` is NULL. */
static struct bytes read_input(const char *name)
{
    FILE *stream = name != NULL ? fopen(name, "rb") : stdin;
    struct bytes text = {NULL, 0};
    if (stream != NULL)
        text = read_all(stream);
    if (text.start == NULL)
        perror(name != NULL ? name : "standard input");
    return text;
}

static int read_list(const char *name)
{
    static uint64_t numbers[PAILINSTANT_NUMBERS];
    struct bytes text = read_input(name);
    uint32_t answer;
    if (text.start == NULL)
        return 2;
    answer = pailinstant_read_list(text.start, text.count, numbers, PAILINSTANT_NUMBERS);
    free(text.start);
    if (answer == 0) {
        print_list(numbers);
        return 0;
    }
    printf("refused %" PRIu32 " at line %" PRIu32, PAILINSTANT_REFUSAL(answer), PAILINSTANT_LINE(answer));
    print_words(PAILINSTANT_REFUSAL(answer));
    return 1;
}

static int print_refused(uint64_t answer)
{
    printf("refused %" PRIu64 " at place %" PRIu64 " of sheet %" PRIu64, PAILINSTANT_REFUSAL(answer), PAILINSTANT_PLACE(answer),
           PAILINSTANT_POSITION(answer));
    print_words(PAILINSTANT_REFUSAL(answer));
    return 1;
}

static int print_written(uint64_t answer, const uint8_t *output)
{
    if (answer >= 65536)
        return print_refused(answer);
    fwrite(output, 1, answer, stdout);
    return 0;
}

static int print_reserved(uint64_t answer)
{
    if (PAILINSTANT_RESERVED(answer) == 0)
        return print_refused(answer);
    printf("reserved %" PRIu64 " for net %" PRIu64 "\n", PAILINSTANT_RESERVED(answer), PAILINSTANT_NET(answer));
    return 0;
}

static int print_withdrawn(uint64_t answer)
{
    if (answer != 0)
        return print_refused(answer);
    puts("withdrawn");
    return 0;
}

/* What a call is made with; each uses some of it. */
struct call {
    struct bytes list, text;
    uint16_t reserved, net;
    uint8_t *output;
    size_t room;
    uint32_t lengths[32];
    size_t count;
};

static int add_set(const struct call *c)
{
    uint64_t answer = pailinstant_add_set(c->list.start, c->list.count, c->text.start, c->text.count, c->lengths, c->count, c->output,
                                          c->room);
    return print_written(answer, c->output);
}

static int add_set_beside(const struct call *c)
{
    uint64_t answer = pailinstant_add_set_beside(c->list.start, c->list.count, c->reserved, c->net, c->text.start, c->text.count,
                                                 c->lengths, c->count, c->output, c->room);
    return print_written(answer, c->output);
}

static int reserve(const struct call *c)
{
    return print_reserved(pailinstant_reserve(c->list.start, c->list.count, c->reserved, c->net, c->text.start, c->text.count));
}

static int commit(const struct call *c)
{
    uint64_t answer = pailinstant_commit(c->list.start, c->list.count, c->reserved, c->net, c->text.start, c->text.count, c->output,
                                         c->room);
    return print_written(answer, c->output);
}

static int withdraw(const struct call *c)
{
    return print_withdrawn(pailinstant_withdraw(c->list.start, c->list.count, c->reserved, c->net));
}

typedef int make(const struct call *);

/* The call of this name beside a reservation; NULL where there is none. */
static make *named(const char *name)
{
    if (strcmp(name, "reserve") == 0)
        return reserve;
    if (strcmp(name, "commit") == 0)
        return commit;
    if (strcmp(name, "withdraw") == 0)
        return withdraw;
    return strcmp(name, "add") == 0 ? add_set_beside : NULL;
}

/* Makes a call with the list of this name and what else it is made with: the name of a text, its room and its lengths, as far as given. */
static int run(make *made, struct call *c, const char *list, char **rest, int count)
{
    int status = 2;
    c->list = read_input(list);
    if (count > 0)
        c->text = read_input(rest[0]);
    c->room = count > 1 ? strtoul(rest[1], NULL, 10) : 0;
    for (; c->count < 32 && (int)c->count + 2 < count; c->count++)
        c->lengths[c->count] = strtoul(rest[c->count + 2], NULL, 10);
    c->output = malloc(c->room + 1);
    if (c->list.start != NULL && (count == 0 || c->text.start != NULL) && c->output != NULL)
        status = made(c);
    free(c->list.start);
    free(c->text.start);
    free(c->output);
    return status;
}

int main(int count, char **arguments)
{
    struct call c = {{NULL, 0}, {NULL, 0}, 0, 0, NULL, 0, {0}, 0};
    make *made = count > 4 ? named(arguments[1]) : NULL;
    if (made != NULL) {
        c.reserved = strtoul(arguments[3], NULL, 10);
        c.net = strtoul(arguments[4], NULL, 10);
        return run(made, &c, arguments[2], arguments + 5, count - 5);
    }
    if (count > 3)
        return run(add_set, &c, arguments[1], arguments + 2, count - 2);
    return read_list(count > 1 ? arguments[1] : NULL);
}
