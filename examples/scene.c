#include "scene.h"

/*
 * Whatever its size, a face is FACE by FACE units, and levels are 0 to WHITE until they are cut to the depth. Shares are 0
 * to ONE. No product below is beyond 2^31 - 1.
 */
enum { FACE = 4096, WHITE = 65535, ONE = 4096 };

/* A square of the grid; how far the grid's lines and the border reach before they have faded out; a cell of a letter. */
enum { SQUARE = FACE / 8, LINE_REACH = 64, BORDER_REACH = 192, CELL = 320 };

enum { LETTER_ROWS = 7, LETTER_COLUMNS = 5 };

/* Smaller faces are just levels. */
enum { SMALLEST_WITH_DETAIL = 32 };

/* The faces in the order of their numbers: front, back, top, bottom, right, left. */
static const int greys[6] = {43000, 18000, 50000, 11000, 36000, 25000};

static const char *const letters[6][LETTER_ROWS] = {
    {"#####", "#    ", "#    ", "#### ", "#    ", "#    ", "#    "},
    {"#### ", "#   #", "#   #", "#### ", "#   #", "#   #", "#### "},
    {"#   #", "#   #", "#   #", "#   #", "#   #", "#   #", " ### "},
    {"#### ", "#   #", "#   #", "#   #", "#   #", "#   #", "#### "},
    {"#### ", "#   #", "#   #", "#### ", "# #  ", "#  # ", "#   #"},
    {"#    ", "#    ", "#    ", "#    ", "#    ", "#    ", "#####"},
};

static int smaller(int first, int second)
{
    return first < second ? first : second;
}

static int larger(int first, int second)
{
    return first > second ? first : second;
}

/* The share of a line at a distance from its middle: ONE at 0, smoothly down to 0 where its reach ends. */
static int line_share(int distance, int reach)
{
    if (distance >= reach)
        return 0;
    const int nearness = (reach - distance) * ONE / reach;
    return nearness * nearness / ONE * (3 * ONE - 2 * nearness) / ONE;
}

/* The distance to the next line of the grid, and to the next edge of the face. */
static int to_line(int units)
{
    return smaller(units % SQUARE, SQUARE - units % SQUARE);
}

static int to_edge(int units)
{
    return smaller(units, FACE - units);
}

/* The share of a letter in one of its cells: all or nothing, and nothing around the letter. */
static int cell_share(int face, int column, int row)
{
    const int within = column >= 0 && column < LETTER_COLUMNS && row >= 0 && row < LETTER_ROWS;
    return within && letters[face][row][column] == '#' ? ONE : 0;
}

static int between(int first, int second, int way)
{
    return first + (second - first) * way / CELL;
}

/* The share of a face's letter at a place: between the shares of the four cells around it, then made steeper and cut. */
static int letter_share(int face, int across, int down)
{
    /* Counted from the middle of the cell that would be left of and above the letter's first one. */
    const int x = across - (FACE - LETTER_COLUMNS * CELL) / 2 + CELL / 2;
    const int y = down - (FACE - LETTER_ROWS * CELL) / 2 + CELL / 2;
    if (x < 0 || y < 0)
        return 0;
    const int column = x / CELL - 1, row = y / CELL - 1;
    const int upper = between(cell_share(face, column, row), cell_share(face, column + 1, row), x % CELL);
    const int lower = between(cell_share(face, column, row + 1), cell_share(face, column + 1, row + 1), x % CELL);
    const int share = 3 * between(upper, lower, y % CELL) - ONE / 2;
    return share < 0 ? 0 : smaller(share, ONE);
}

/* Takes a level some share of the way to another one. */
static int mixed(int level, int other, int share)
{
    return level + (other - level) * share / ONE;
}

/* The level at a place of a face, in units from its left and from its top. A sample is this many units wide and high. */
static int level_at(int face, int across, int down, int sample)
{
    const int ink = greys[face] > WHITE / 2 ? 0 : WHITE;
    int level = greys[face] + 2 * (across - down);
    if (sample > FACE / SMALLEST_WITH_DETAIL)
        return level;
    level = mixed(level, ink, line_share(smaller(to_line(across), to_line(down)), larger(LINE_REACH, sample)) / 4);
    level = mixed(level, ink, letter_share(face, across, down) * 3 / 4);
    return mixed(level, WHITE, line_share(smaller(to_edge(across), to_edge(down)), BORDER_REACH));
}

/* The middle of a column or row, in units. */
static int units_of(size_t count, size_t size)
{
    return (int)((2 * count + 1) * FACE / (2 * size));
}

/* The level at a place of the frame. Each quarter turn of the slot, from (m, n) to (size - 1 - n, m), is undone first. */
static int frame_level(size_t size, size_t frame_column, size_t frame_row)
{
    const size_t slot = frame_row / size * 3 + frame_column / size;
    size_t column = frame_column % size, row = frame_row % size;
    for (size_t turns = usual_layout[6 + slot]; turns > 0; turns--) {
        const size_t old_column = column;
        column = row;
        row = size - 1 - old_column;
    }
    return level_at(usual_layout[slot], units_of(column, size), units_of(row, size), (int)(FACE / size));
}

int scene_make(struct frame *frame, uint64_t size, uint64_t depth)
{
    if (!frame_make(frame, size, depth, WELCHODRYS_CMP))
        return 0;
    const size_t width = 3 * (size_t)size, count = sample_count(frame);
    for (size_t index = 0; index < count; index++)
        put_sample(frame, index, (unsigned)frame_level((size_t)size, index % width, index / width) >> (16 - depth));
    return 1;
}
