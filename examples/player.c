/*
 * A player in one file. It follows a view that turns by whole-cube turns, and turns the frame from picture to picture; then it
 * turns the first picture once, by the fold of all turns. No sample is lost on either way, so the two pictures are the same.
 *
 *     cc player.c $(pkg-config --cflags --libs welchodrys)
 */
#include <welchodrys.h>

#include <inttypes.h>
#include <stdio.h>

#define SIZE 64
#define DEPTH 10
#define BYTES WELCHODRYS_FRAME_BYTES(SIZE)

static const uint8_t usual_layout[WELCHODRYS_LAYOUT_BYTES] = {4, 0, 5, 3, 1, 2, 0, 0, 0, 1, 1, 1};

/* The view turns up, to the left face, up again, and then by a third of a circle about a corner of the cube. */
static const int64_t movements[4][4] = {{1, 0, 0, 1}, {1, 0, 1, 0}, {1, 0, 0, 1}, {1, 1, 1, 1}};

/* Number k of an answer, on any machine. */
static int64_t number_at(const uint8_t *answer, int k)
{
    uint64_t bits = 0;
    for (int i = 0; i < 8; i++)
        bits |= (uint64_t)answer[8 * k + i] << (8 * i);
    return bits <= INT64_MAX ? (int64_t)bits : -(int64_t)(UINT64_MAX - bits) - 1;
}

/* Adds a movement to the view's turn. */
static uint64_t follow(int64_t view[4], const int64_t movement[4])
{
    uint8_t answer[32];
    const uint64_t code = welchodrys_fold(view[0], view[1], view[2], view[3],
        movement[0], movement[1], movement[2], movement[3], answer, sizeof answer);
    if (code == WELCHODRYS_ACCEPTED)
        for (int k = 0; k < 4; k++)
            view[k] = number_at(answer, k);
    return code;
}

/* Shows a picture in a turned view. */
static uint64_t show(const uint8_t *picture, const int64_t turn[4], uint8_t *shown)
{
    return welchodrys_convert(SIZE, SIZE, DEPTH, WELCHODRYS_CMP, WELCHODRYS_CMP, WELCHODRYS_CUBIC,
        usual_layout, sizeof usual_layout, usual_layout, sizeof usual_layout, turn[0], turn[1], turn[2], turn[3],
        picture, BYTES, shown, BYTES);
}

/* The error sum and the weight sum of two pictures. */
static uint64_t score(const uint8_t *first, const uint8_t *second, int64_t sums[2])
{
    uint8_t answer[16];
    const uint64_t code = welchodrys_score(SIZE, DEPTH, WELCHODRYS_CMP,
        usual_layout, sizeof usual_layout, usual_layout, sizeof usual_layout, first, BYTES, second, BYTES, answer, sizeof answer);
    sums[0] = code == WELCHODRYS_ACCEPTED ? number_at(answer, 0) : -1;
    sums[1] = code == WELCHODRYS_ACCEPTED ? number_at(answer, 1) : -1;
    return code;
}

/* Whether a call was accepted; says which was not. */
static int accepted(const char *call, uint64_t code)
{
    if (code != WELCHODRYS_ACCEPTED)
        printf("%s was refused with number %" PRIu64 ", index %" PRIu64 "\n", call, WELCHODRYS_NUMBER(code), WELCHODRYS_INDEX(code));
    return code == WELCHODRYS_ACCEPTED;
}

int main(void)
{
    static uint8_t pictures[5][BYTES], at_once[BYTES];
    int64_t view[4] = {1, 0, 0, 0}, sums[2];

    for (size_t i = 0; i < BYTES / 2; i++) {
        const size_t level = i * i % (1u << DEPTH);
        pictures[0][2 * i] = (uint8_t)(level % 256);
        pictures[0][2 * i + 1] = (uint8_t)(level / 256);
    }
    for (int step = 0; step < 4; step++)
        if (!accepted("fold", follow(view, movements[step]))
            || !accepted("convert", show(pictures[step], movements[step], pictures[step + 1])))
            return 1;
    if (!accepted("convert", show(pictures[0], view, at_once)) || !accepted("score", score(pictures[4], at_once, sums)))
        return 1;

    printf("Four movements fold into the turn (%" PRId64 ", %" PRId64 ", %" PRId64 ", %" PRId64 ").\n",
        view[0], view[1], view[2], view[3]);
    printf("The picture that was turned four times and the one that was turned once have the error sum %" PRId64
        " (weight sum %" PRId64 ").\n", sums[0], sums[1]);
    return sums[0] == 0 && sums[1] > 0 ? 0 : 1;
}
