/*
 * Makes the calls of a record from C, and compares the code and every byte of each lent buffer with what the reference gives.
 * The differential test writes the record; reference/src/bin/differential/record.rs says what is in it.
 *
 * Each buffer is lent in front of a page that can be neither read nor written (lent.h). A call with an empty buffer is made
 * once more, with NULL for what is empty. The status is 0 where the record is whole, there is no difference, and each of the
 * five calls was accepted, was refused and was given NULL.
 */
#include "calls.h"
#include "lent.h"
#include "welchodrys.h"

#include <inttypes.h>
#include <stdio.h>
#include <stdlib.h>
#include <string.h>

enum {
    END = 255,  /* stands in a record where the kind of another call would */
    ENOUGH = 10 /* the program stops after so many differences */
};

static const char begin[8] = {'c', 'a', 'l', 'l', 's', ' ', '0', '1'};

/* What is left of the record. */
struct input {
    const uint8_t *start, *at, *end;
};

/* A call of the record. What the reference left in the last buffer is as long as that was before. */
struct recorded {
    const struct call *call;
    uint64_t position;    /* among the calls of the record, from 1 */
    int null_where_empty; /* whether NULL is lent for what is empty */
    uint64_t numbers[MOST_NUMBERS];
    const uint8_t *before[MOST_BUFFERS];
    size_t lengths[MOST_BUFFERS];
    uint64_t code;
    const uint8_t *after;
};

/* How often one of the five calls was compared: accepted, refused, and how many of both were given NULL. */
struct tally {
    uint64_t accepted, refused, with_null;
};

static struct lent lent[MOST_BUFFERS];
static struct tally tallies[CALLS];
static unsigned differences;

/* The call under way, for the message at a memory fault. */
static const struct recorded *volatile under_way;

static _Noreturn void fail(const char *what)
{
    printf("replay: %s\n", what);
    exit(EXIT_FAILURE);
}

static struct input read_file(const char *path)
{
    FILE *file = fopen(path, "rb");
    if (file == NULL || fseek(file, 0, SEEK_END) != 0)
        fail("the record cannot be opened");
    const long length = ftell(file);
    uint8_t *bytes = length > 0 ? malloc((size_t)length) : NULL;
    if (bytes == NULL || fseek(file, 0, SEEK_SET) != 0 || fread(bytes, 1, (size_t)length, file) != (size_t)length)
        fail("the record is empty, or cannot be read");
    fclose(file);
    return (struct input){bytes, bytes, bytes + length};
}

/* The next bytes of the record. */
static const uint8_t *take(struct input *input, uint64_t count)
{
    const uint8_t *bytes = input->at;
    if (count > (uint64_t)(input->end - bytes)) {
        printf("replay: the record is cut: behind byte %td it has not %" PRIu64 " more\n", bytes - input->start, count);
        exit(EXIT_FAILURE);
    }
    input->at += count;
    return bytes;
}

static uint64_t take_number(struct input *input)
{
    const uint8_t *bytes = take(input, 8);
    uint64_t number = 0;
    for (size_t i = 0; i < 8; i++)
        number |= (uint64_t)bytes[i] << (8 * i);
    return number;
}

static struct recorded take_call(struct input *input, const struct call *call, uint64_t position)
{
    struct recorded recorded = {.call = call, .position = position};
    for (size_t i = 0; i < call->numbers; i++)
        recorded.numbers[i] = take_number(input);
    for (size_t i = 0; i < call->buffers; i++) {
        const uint64_t length = take_number(input);
        recorded.before[i] = take(input, length);
        recorded.lengths[i] = (size_t)length;
    }
    recorded.code = take_number(input);
    recorded.after = take(input, recorded.lengths[call->buffers - 1]);
    return recorded;
}

/* A call in words, without the bytes of its buffers. */
static void print_call(const struct recorded *recorded)
{
    const struct call *call = recorded->call;
    printf("call %" PRIu64 " of the record, %s, with the numbers", recorded->position, call->name);
    for (size_t i = 0; i < call->numbers; i++)
        printf(" %" PRId64, signed_number(recorded->numbers[i]));
    printf(" and the lengths");
    for (size_t i = 0; i < call->buffers; i++)
        printf(" %zu", recorded->lengths[i]);
    printf("%s\n", recorded->null_where_empty ? ", NULL where empty" : "");
}

/* It may print: what was interrupted in a call is the library, and no function that prints. */
static void report_fault(int number)
{
    (void)number;
    printf("memory fault in ");
    if (under_way != NULL)
        print_call(under_way);
    else
        printf("no call\n");
    exit(EXIT_FAILURE);
}

/* Compares what a call returned and left in the lent memory with what the reference gives. */
static void compare_outcome(const struct recorded *recorded, uint64_t code)
{
    const struct call *call = recorded->call;
    struct difference found[MOST_BUFFERS];
    int same = code == recorded->code;
    for (size_t i = 0; i < call->buffers; i++) {
        const uint8_t *expected = i + 1 < call->buffers ? recorded->before[i] : recorded->after;
        found[i] = compare_lent(&lent[i], expected, recorded->lengths[i]);
        same = same && found[i].count == 0;
    }
    if (same)
        return;
    printf("difference: ");
    print_call(recorded);
    printf("  the library returned %" PRIu64 ", the reference %" PRIu64 "\n", code, recorded->code);
    for (size_t i = 0; i < call->buffers; i++)
        if (found[i].count > 0)
            printf("  %s: %zu bytes differ, the first at %td\n", call->buffer_names[i], found[i].count, found[i].first);
    if (++differences == ENOUGH) {
        printf("replay: stopped after %d differences\n", ENOUGH);
        exit(EXIT_FAILURE);
    }
}

static void count_compared(const struct recorded *recorded)
{
    struct tally *tally = &tallies[recorded->call - calls];
    if (WELCHODRYS_NUMBER(recorded->code) == WELCHODRYS_ACCEPTED)
        tally->accepted++;
    else
        tally->refused++;
    if (recorded->null_where_empty)
        tally->with_null++;
}

/* Makes a call with buffers that are lent, and compares what it gives. */
static void compare(const struct recorded *recorded)
{
    const struct call *call = recorded->call;
    struct buffer buffers[MOST_BUFFERS];
    for (size_t i = 0; i < call->buffers; i++) {
        const size_t length = recorded->lengths[i];
        uint8_t *bytes = lend(&lent[i], recorded->before[i], length, (uint8_t)(recorded->position + i));
        buffers[i] = (struct buffer){recorded->null_where_empty && length == 0 ? NULL : bytes, length};
    }
    under_way = recorded;
    const uint64_t code = call->make(recorded->numbers, buffers);
    under_way = NULL;
    compare_outcome(recorded, code);
    count_compared(recorded);
}

static int has_empty(const struct recorded *recorded)
{
    for (size_t i = 0; i < recorded->call->buffers; i++)
        if (recorded->lengths[i] == 0)
            return 1;
    return 0;
}

/* Compares every call of the record, and requires that it is whole. */
static void replay(struct input *input)
{
    uint64_t position = 0;
    uint8_t kind;
    while ((kind = *take(input, 1)) != END) {
        if (kind >= CALLS)
            fail("the record is damaged: there is no such call");
        struct recorded recorded = take_call(input, &calls[kind], ++position);
        compare(&recorded);
        if (has_empty(&recorded)) {
            recorded.null_where_empty = 1;
            compare(&recorded);
        }
    }
    if (take_number(input) != position || input->at != input->end)
        fail("the record is damaged: it has another count of calls, or more behind its end");
}

/* Prints what was compared. Returns whether each of the five calls was accepted, was refused and was given NULL. */
static int report(void)
{
    uint64_t all = 0;
    int all_occurred = 1;
    for (size_t i = 0; i < CALLS; i++) {
        const struct tally *tally = &tallies[i];
        const uint64_t compared = tally->accepted + tally->refused;
        printf("%s: %" PRIu64 " calls compared, %" PRIu64 " accepted, %" PRIu64 " refused, %" PRIu64 " of them given NULL\n",
            calls[i].name, compared, tally->accepted, tally->refused, tally->with_null);
        if (tally->accepted == 0 || tally->refused == 0 || tally->with_null == 0) {
            printf("replay: %s was never accepted, never refused or never given NULL\n", calls[i].name);
            all_occurred = 0;
        }
        all += compared;
    }
    printf("%" PRIu64 " calls compared from C, %u differences\n", all, differences);
    return all_occurred;
}

int main(int count, char **arguments)
{
    if (count != 2)
        fail("usage: replay RECORD");
    struct input input = read_file(arguments[1]);
    if (memcmp(take(&input, sizeof begin), begin, sizeof begin) != 0)
        fail("this is no record of calls");
    at_fault(report_fault);
    /* No buffer has more bytes than the record. */
    for (size_t i = 0; i < MOST_BUFFERS; i++)
        prepare(&lent[i], (size_t)(input.end - input.start));
    replay(&input);
    return report() && differences == 0 ? EXIT_SUCCESS : EXIT_FAILURE;
}
