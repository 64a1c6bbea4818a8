/*
 * Turns a frame in eight ways, and writes each as a picture; then turns each back, and says how much was lost on the way.
 *
 * turn DIRECTORY            with a scene that it makes itself, and writes as a picture too
 * turn DIRECTORY FRAME.pgm  with a frame that it reads
 */
#include "answers.h"
#include "frame.h"
#include "pgm.h"
#include "scene.h"

#include <inttypes.h>
#include <stdio.h>
#include <string.h>

enum { SCENE_SIZE = 256, SCENE_DEPTH = 10 };
enum { TURNS = 2, WAYS = 4 };

struct turn {
    int64_t e0, e1, e2, e3;
};

/* One way to turn a frame, and the file that the result goes to. */
struct conversion {
    const char *file;
    uint64_t format, sampler;
    int exact; /* whether every sample has to come back unchanged */
};

static const char scene_file[] = "scene.pgm";
static const char *const face_names[6] = {"front", "back", "top", "bottom", "right", "left"};
static const char *const format_names[2] = {"CMP", "ACP"};
static const char *const sampler_names[2] = {"nearest", "cubic"};

static const struct turn turns[TURNS] = {{29, 3, 7, -5}, {1, 0, 1, 0}};
static const char *const turn_names[TURNS] = {"a general turn", "a whole-cube turn, which takes faces to faces"};

/* The ways in which each turn is tried. A cubic one follows the nearest one that it is compared with. */
static const struct conversion conversions[TURNS][WAYS] = {
    {
        {"general-nearest-cmp.pgm", WELCHODRYS_CMP, WELCHODRYS_NEAREST, 0},
        {"general-cubic-cmp.pgm", WELCHODRYS_CMP, WELCHODRYS_CUBIC, 0},
        {"general-nearest-acp.pgm", WELCHODRYS_ACP, WELCHODRYS_NEAREST, 0},
        {"general-cubic-acp.pgm", WELCHODRYS_ACP, WELCHODRYS_CUBIC, 0},
    },
    {
        {"whole-cube-nearest-cmp.pgm", WELCHODRYS_CMP, WELCHODRYS_NEAREST, 1},
        {"whole-cube-cubic-cmp.pgm", WELCHODRYS_CMP, WELCHODRYS_CUBIC, 1},
        {"whole-cube-nearest-acp.pgm", WELCHODRYS_ACP, WELCHODRYS_NEAREST, 0},
        {"whole-cube-cubic-acp.pgm", WELCHODRYS_ACP, WELCHODRYS_CUBIC, 0},
    },
};

/* The frame at the start, the turned one, and that one turned back. All have the same size and depth. */
struct frames {
    struct frame first, turned, back;
};

static struct turn inverse_of(struct turn turn)
{
    return (struct turn){turn.e0, -turn.e1, -turn.e2, -turn.e3};
}

static void print_turn(struct turn turn)
{
    printf("(%" PRId64 ", %" PRId64 ", %" PRId64 ", %" PRId64 ")", turn.e0, turn.e1, turn.e2, turn.e3);
}

static uint64_t convert(const struct frame *source, struct frame *target, uint64_t sampler, struct turn turn)
{
    return welchodrys_convert(source->size, target->size, source->depth, source->format, target->format, sampler,
        usual_layout, sizeof usual_layout, usual_layout, sizeof usual_layout, turn.e0, turn.e1, turn.e2, turn.e3,
        source->bytes, byte_count(source), target->bytes, byte_count(target));
}

static uint64_t score(const struct frame *first, const struct frame *second, uint8_t answer[16])
{
    return welchodrys_score(first->size, first->depth, first->format,
        usual_layout, sizeof usual_layout, usual_layout, sizeof usual_layout,
        first->bytes, byte_count(first), second->bytes, byte_count(second), answer, 16);
}

/* Folds a turn with its inverse, and checks that both together leave everything in place. */
static int fold_with_inverse(struct turn turn)
{
    uint8_t fold[32], equal[8];
    const struct turn back = inverse_of(turn);
    if (!accepted("fold", welchodrys_fold(turn.e0, turn.e1, turn.e2, turn.e3,
            back.e0, back.e1, back.e2, back.e3, fold, sizeof fold)))
        return 0;
    const struct turn both = {number_at(fold, 0), number_at(fold, 1), number_at(fold, 2), number_at(fold, 3)};
    if (!accepted("equality", welchodrys_equal(both.e0, both.e1, both.e2, both.e3, 1, 0, 0, 0, equal, sizeof equal)))
        return 0;
    const int in_place = number_at(equal, 0) == 1;
    printf("  Its inverse is ");
    print_turn(back);
    printf(". Folded into one, the two are ");
    print_turn(both);
    printf(":\n  %s.\n", in_place ? "a turn that leaves everything in place" : "another turn, which is WRONG");
    return in_place;
}

/*
 * Looks up what the middle of the front shows after a turn. In the target its ray is (1, 0, 0), so in the source it is the
 * first column of the turn's matrix.
 */
static int look_ahead(const struct frame *first, struct turn turn)
{
    uint8_t answer[24];
    const int64_t x = turn.e0 * turn.e0 + turn.e1 * turn.e1 - turn.e2 * turn.e2 - turn.e3 * turn.e3;
    const int64_t y = 2 * (turn.e1 * turn.e2 + turn.e0 * turn.e3);
    const int64_t z = 2 * (turn.e1 * turn.e3 - turn.e0 * turn.e2);
    if (!accepted("look-up", welchodrys_look_up(first->size, first->format, x, y, z, answer, sizeof answer)))
        return 0;
    const int64_t face = number_at(answer, 0), column = number_at(answer, 1), row = number_at(answer, 2);
    printf("  The middle of the front then shows what was on the %s, at column %.2f, row %.2f.\n",
        face_names[face], (double)column / 64, (double)row / 64);
    return 1;
}

static int introduce_turn(const struct frame *first, size_t t)
{
    printf("\nThe turn ");
    print_turn(turns[t]);
    printf(", %s\n", turn_names[t]);
    return fold_with_inverse(turns[t]) && look_ahead(first, turns[t]);
}

/* Says how the error by cubic compares with the one by nearest. */
static void compare(int64_t cubic, int64_t nearest)
{
    if (cubic == nearest)
        printf("    By nearest, the error is the same.\n");
    else if (cubic == 0 || nearest == 0)
        printf("    By nearest, there is %s error.\n", nearest == 0 ? "no" : "an");
    else if (cubic < nearest)
        printf("    By nearest, the error is %.2f times as large.\n", (double)nearest / (double)cubic);
    else
        printf("    By nearest, the error is smaller: this one is %.2f times as large.\n", (double)cubic / (double)nearest);
}

/* Scores the frame that came back against the first one, and says what that gave. Gives the error sum. */
static int score_return(const struct frames *frames, int exact, int64_t *error)
{
    uint8_t answer[16];
    if (!accepted("score", score(&frames->first, &frames->back, answer)))
        return 0;
    *error = number_at(answer, 0);
    const int64_t weights = number_at(answer, 1);
    printf("    Turned back, its weighted mean squared error is %.3f levels squared\n", (double)*error / (double)weights);
    printf("    (error sum %" PRId64 " of weight sum %" PRId64 ").\n", *error, weights);
    if (*error == 0)
        printf("    Every sample came back unchanged.\n");
    else if (exact)
        printf("    Not every sample came back unchanged, which is WRONG: between such frames, no sample is lost.\n");
    return *error == 0 || !exact;
}

/* Turns the first frame in one way, writes the result, turns it back and scores what came back. */
static int turn_and_return(const char *directory, struct frames *frames, struct turn turn, const struct conversion *way,
    int64_t *error)
{
    frames->turned.format = way->format;
    if (!accepted("conversion", convert(&frames->first, &frames->turned, way->sampler, turn)))
        return 0;
    if (!pgm_write(directory, way->file, &frames->turned))
        return 0;
    printf("  %s: turned by %s, to %s.\n", way->file, sampler_names[way->sampler], format_names[way->format]);
    return accepted("conversion", convert(&frames->turned, &frames->back, way->sampler, inverse_of(turn)))
        && score_return(frames, way->exact, error);
}

/* All ways of one turn. */
static int turn_in_all_ways(const char *directory, struct frames *frames, size_t t)
{
    int64_t error, error_by_nearest = 0;
    if (!introduce_turn(&frames->first, t))
        return 0;
    for (size_t w = 0; w < WAYS; w++) {
        const struct conversion *const way = &conversions[t][w];
        if (!turn_and_return(directory, frames, turns[t], way, &error))
            return 0;
        if (way->sampler == WELCHODRYS_CUBIC)
            compare(error, error_by_nearest);
        else
            error_by_nearest = error;
    }
    return 1;
}

/* Tries to convert a frame with one sample beyond its depth. The target is a copy of the first frame, and has to stay so. */
static int refuse_conversion(struct frames *frames)
{
    struct frame *const source = &frames->back, *const target = &frames->turned;
    const size_t bytes = byte_count(source), index = sample_count(source) / 2;
    const unsigned level = 1u << source->depth;
    memcpy(source->bytes, frames->first.bytes, bytes);
    memcpy(target->bytes, frames->first.bytes, bytes);
    put_sample(source, index, level);

    const uint64_t code = convert(source, target, WELCHODRYS_CUBIC, turns[0]);
    const int unchanged = memcmp(target->bytes, frames->first.bytes, bytes) == 0;
    printf("\nA call that is refused\n");
    printf("  With %" PRIu64 " bits, a level is at most %u. With %u at index %zu of the source, a conversion gives\n",
        source->depth, level - 1, level, index);
    printf("  number %" PRIu64 ", index %" PRIu64 ": %s.\n",
        WELCHODRYS_NUMBER(code), WELCHODRYS_INDEX(code), in_words(code));
    printf("  %s\n", unchanged ? "Every byte of its target is unchanged." : "Its target has changed.");
    if (code == WELCHODRYS_FIRST_SAMPLE + 256 * (uint64_t)index && unchanged)
        return 1;
    printf("  That is WRONG: number %d, index %zu and an unchanged target are due.\n", WELCHODRYS_FIRST_SAMPLE, index);
    return 0;
}

static void list_files(const char *directory, int with_scene)
{
    printf("\nThese %d files are in %s now. They are plain PGM pictures, and most programs for pictures show them:\n",
        TURNS * WAYS + with_scene, directory);
    if (with_scene)
        printf("  %s\n", scene_file);
    for (size_t t = 0; t < TURNS; t++)
        for (size_t w = 0; w < WAYS; w++)
            printf("  %s\n", conversions[t][w].file);
}

/* Makes or reads the first frame, and takes memory for the others; no file is written yet. */
static int prepare(const char *frame_file, struct frames *frames)
{
    struct frame *const first = &frames->first;
    const int there = frame_file == NULL ? scene_make(first, SCENE_SIZE, SCENE_DEPTH) : pgm_read(frame_file, first);
    return there && frame_make(&frames->turned, first->size, first->depth, WELCHODRYS_CMP)
        && frame_make(&frames->back, first->size, first->depth, WELCHODRYS_CMP);
}

/* Does the whole job with the frames that are prepared. */
static int run(const char *directory, const char *frame_file, struct frames *frames)
{
    const struct frame *const first = &frames->first;
    if (frame_file == NULL && !pgm_write(directory, scene_file, first))
        return 0;
    printf("The frame is %s: %s with %" PRIu64 " bits, six faces of %" PRIu64 " by %" PRIu64 " samples.\n",
        frame_file == NULL ? scene_file : frame_file, format_names[first->format], first->depth, first->size, first->size);
    for (size_t t = 0; t < TURNS; t++)
        if (!turn_in_all_ways(directory, frames, t))
            return 0;
    if (!refuse_conversion(frames))
        return 0;
    list_files(directory, frame_file == NULL);
    return 1;
}

/* Whether all that was printed has reached its reader. */
static int printed(void)
{
    if (fflush(stdout) == 0 && !ferror(stdout))
        return 1;
    fprintf(stderr, "The report cannot be written to standard output.\n");
    return 0;
}

static void usage(FILE *to)
{
    fprintf(to, "usage: turn DIRECTORY [FRAME.pgm]\n"
        "Turns a cubemap frame in eight ways, writes each as a PGM picture into DIRECTORY, which has to exist,\n"
        "turns each back, and prints how much was lost. FRAME.pgm is a binary PGM of 3A by 2A samples with 8 to 12 bits,\n"
        "taken as CMP in the usual layout; without it, a scene is made, and written as %s.\n", scene_file);
}

int main(int argc, char **argv)
{
    if (argc == 2 && (strcmp(argv[1], "-h") == 0 || strcmp(argv[1], "--help") == 0)) {
        usage(stdout);
        return printed() ? 0 : 1;
    }
    if (argc < 2 || argc > 3 || argv[1][0] == '\0') {
        usage(stderr);
        return 2;
    }

    const char *const directory = argv[1], *const frame_file = argc == 3 ? argv[2] : NULL;
    struct frames frames = {0};
    const int done = prepare(frame_file, &frames) && run(directory, frame_file, &frames);
    frame_free(&frames.first);
    frame_free(&frames.turned);
    frame_free(&frames.back);
    return printed() && done ? 0 : 1;
}
