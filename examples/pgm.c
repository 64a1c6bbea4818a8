#include "pgm.h"

#include <errno.h>
#include <inttypes.h>
#include <stdio.h>
#include <stdlib.h>
#include <string.h>

/* No number in the header of a PGM needs to be larger, and none is read further than this. */
enum { LARGEST_NUMBER = 65535 };

/* A file that is being read, with its name for the messages. */
struct input {
    FILE *file;
    const char *name;
};

/* Says what is wrong with a file, or why it cannot be read further. Returns 0. */
static int wrong(const struct input *input, const char *what)
{
    if (ferror(input->file))
        fprintf(stderr, "%s: the file cannot be read: %s\n", input->name, strerror(errno));
    else
        fprintf(stderr, "%s: %s\n", input->name, what);
    return 0;
}

static int is_space(int character)
{
    return character == ' ' || character == '\t' || character == '\n' || character == '\r';
}

static int is_digit(int character)
{
    return character >= '0' && character <= '9';
}

/* The next character of the header. A comment, from # to the end of its line, counts as that end of line. */
static int header_character(FILE *file)
{
    int character = getc(file);
    if (character == '#')
        do
            character = getc(file);
        while (character != '\n' && character != '\r' && character != EOF);
    return character;
}

/* Reads a number of the header and one character of white space behind it. The number's name is for the messages. */
static int read_number(const struct input *input, const char *number_name, uint64_t *number)
{
    int digits = 0, character = header_character(input->file);
    while (is_space(character))
        character = header_character(input->file);

    *number = 0;
    for (; is_digit(character); character = header_character(input->file), digits = 1)
        if (*number <= LARGEST_NUMBER)
            *number = 10 * *number + (uint64_t)(character - '0');

    if (character == EOF)
        return wrong(input, "the file is cut short within its header");
    if (!digits || !is_space(character)) {
        fprintf(stderr, "%s: the %s in the header is not a whole number with white space behind it\n",
            input->name, number_name);
        return 0;
    }
    if (*number > LARGEST_NUMBER) {
        fprintf(stderr, "%s: the %s in the header is beyond %d\n", input->name, number_name, LARGEST_NUMBER);
        return 0;
    }
    return 1;
}

/* Checks that the file begins as a binary PGM does. */
static int read_magic(const struct input *input)
{
    if (getc(input->file) == 'P' && getc(input->file) == '5' && is_space(header_character(input->file)))
        return 1;
    return wrong(input, "the file is not a binary PGM, which begins with P5 and white space");
}

/* Checks that the picture has the shape of a frame: 3A columns by 2A rows. */
static int has_frame_shape(const struct input *input, uint64_t width, uint64_t height)
{
    const uint64_t size = width / 3;
    if (width == 3 * size && height == 2 * size && size >= 1 && size <= 512)
        return 1;
    fprintf(stderr, "%s: the picture is %" PRIu64 " by %" PRIu64 " samples, but a frame is 3A by 2A, with A from 1 to 512\n",
        input->name, width, height);
    return 0;
}

static int has_frame_levels(const struct input *input, uint64_t largest)
{
    if (largest >= 255 && largest <= 4095)
        return 1;
    fprintf(stderr, "%s: the largest level is %" PRIu64 ", but for 8 to 12 bits it is 255 to 4095\n", input->name, largest);
    return 0;
}

/* The smallest depth that holds the largest level. */
static uint64_t depth_for(uint64_t largest)
{
    uint64_t depth = 8;
    while (largest >> depth != 0)
        depth++;
    return depth;
}

/* Reads the samples: one byte each up to the largest level 255, else two, the higher one first. */
static int read_samples(const struct input *input, unsigned largest, struct frame *frame)
{
    const size_t count = sample_count(frame);
    for (size_t index = 0; index < count; index++) {
        const int high = largest < 256 ? 0 : getc(input->file);
        const int low = getc(input->file);
        if (high == EOF || low == EOF)
            return wrong(input, "the file is cut short within its samples");
        const unsigned level = 256u * (unsigned)high + (unsigned)low;
        if (level > largest) {
            fprintf(stderr, "%s: the sample at index %zu is %u, beyond the largest level %u\n",
                input->name, index, level, largest);
            return 0;
        }
        put_sample(frame, index, level);
    }
    return 1;
}

/* Checks that nothing stands behind the samples. */
static int read_end(const struct input *input)
{
    const int ended = getc(input->file) == EOF && !ferror(input->file);
    return ended || wrong(input, "the file is longer than its samples");
}

static int read_frame(const struct input *input, struct frame *frame)
{
    uint64_t width, height, largest;
    return read_magic(input) && read_number(input, "width", &width) && read_number(input, "height", &height)
        && read_number(input, "largest level", &largest)
        && has_frame_shape(input, width, height) && has_frame_levels(input, largest)
        && frame_make(frame, width / 3, depth_for(largest), WELCHODRYS_CMP)
        && read_samples(input, (unsigned)largest, frame) && read_end(input);
}

int pgm_read(const char *name, struct frame *frame)
{
    const struct input input = {fopen(name, "rb"), name};
    frame->bytes = NULL;
    if (input.file == NULL) {
        fprintf(stderr, "%s: the file cannot be opened: %s\n", name, strerror(errno));
        return 0;
    }
    const int whole = read_frame(&input, frame);
    fclose(input.file);
    if (!whole)
        frame_free(frame);
    return whole;
}

/* DIRECTORY/NAME and an ending behind it, in memory that the caller frees. */
static char *path_of(const char *directory, const char *name, const char *ending)
{
    /* All three stand in memory, each with a byte behind it, so their lengths and 2 do not overflow. */
    const size_t length = strlen(directory) + strlen(name) + strlen(ending) + 2;
    char *const path = malloc(length);
    if (path == NULL)
        fprintf(stderr, "There is no memory for the name of a file.\n");
    else
        snprintf(path, length, "%s/%s%s", directory, name, ending);
    return path;
}

/* Writes the header and the samples, in the form in which read_frame reads them. */
static int write_frame(FILE *file, const struct frame *frame)
{
    const size_t count = sample_count(frame);
    const unsigned largest = (1u << frame->depth) - 1;
    if (fprintf(file, "P5\n%" PRIu64 " %" PRIu64 "\n%u\n", 3 * frame->size, 2 * frame->size, largest) < 0)
        return 0;
    for (size_t index = 0; index < count; index++) {
        const unsigned level = sample_at(frame, index);
        if (largest > 255 && putc((int)(level / 256), file) == EOF)
            return 0;
        if (putc((int)(level % 256), file) == EOF)
            return 0;
    }
    return 1;
}

/* Writes the file NAME.part; some of it may reach the disk only when the file is closed. */
static int write_part(const char *part, const struct frame *frame)
{
    FILE *const file = fopen(part, "wb");
    if (file == NULL) {
        fprintf(stderr, "%s: the file cannot be created: %s\n", part, strerror(errno));
        return 0;
    }
    const int written = write_frame(file, frame), why_not_written = errno;
    const int closed = fclose(file) == 0, why_not_closed = errno;
    if (written && closed)
        return 1;
    fprintf(stderr, "%s: the file cannot be written: %s\n", part, strerror(written ? why_not_closed : why_not_written));
    remove(part);
    return 0;
}

/* Gives the whole file its name; an older file of that name is replaced. */
static int rename_part(const char *part, const char *path)
{
    if (rename(part, path) == 0)
        return 1;
    fprintf(stderr, "%s: the file cannot be put in place: %s\n", path, strerror(errno));
    remove(part);
    return 0;
}

int pgm_write(const char *directory, const char *name, const struct frame *frame)
{
    char *const path = path_of(directory, name, ""), *const part = path_of(directory, name, ".part");
    const int written = path != NULL && part != NULL && write_part(part, frame) && rename_part(part, path);
    free(path);
    free(part);
    return written;
}
