/*
 * Finds the four whole numbers of a wanted turn: the view turns LEFT by so many degrees, from there UP, and then TILTS to the right;
 * a negative angle goes the other way. Left, top and right are faces 5, 2 and 4, by the names of JVET-H1004. (The columns of a front
 * face run towards the left face, so in a picture of it as it is stored, that one lies beyond the right rim.)
 *
 * A turn is four whole numbers from -31 to 31, so not every angle can be had: the program says by how many degrees the turn that it
 * found is off.
 *
 *     wanted_turn LEFT UP TILT
 */
#include <math.h>
#include <stdio.h>
#include <stdlib.h>

enum { LARGEST = 31, STEPS = 16 /* the sizes that are tried between two whole numbers */ };

static const double degree = 3.14159265358979323846 / 180;

struct quaternion {
    double e[4];
};

/* First one turn, then another one: the product, the first on the left. */
static struct quaternion then(struct quaternion first, struct quaternion later)
{
    const double *const a = first.e, *const b = later.e;
    return (struct quaternion){{
        a[0] * b[0] - a[1] * b[1] - a[2] * b[2] - a[3] * b[3],
        a[0] * b[1] + a[1] * b[0] + a[2] * b[3] - a[3] * b[2],
        a[0] * b[2] - a[1] * b[3] + a[2] * b[0] + a[3] * b[1],
        a[0] * b[3] + a[1] * b[2] - a[2] * b[1] + a[3] * b[0],
    }};
}

/* A turn about one axis: 1 is X (front), 2 is Y (top), 3 is Z (right). */
static struct quaternion about(int axis, double degrees)
{
    struct quaternion turn = {{cos(degrees / 2 * degree), 0, 0, 0}};
    turn.e[axis] = sin(degrees / 2 * degree);
    return turn;
}

/* By how many degrees the turn with these whole numbers is off. */
static double degrees_off(struct quaternion wanted, const int numbers[4])
{
    double squares = 0, distance = 0;
    for (int i = 0; i < 4; i++)
        squares += numbers[i] * numbers[i];
    for (int i = 0; i < 4; i++)
        distance += pow(wanted.e[i] - numbers[i] / sqrt(squares), 2);
    return 4 * asin(sqrt(distance) / 2) / degree;
}

/* Tries sizes of the largest number, the others in proportion, all rounded, and keeps the nearest turn; the smallest of those. */
static double nearest_turn(struct quaternion wanted, int numbers[4])
{
    double largest = 0, least = INFINITY;
    for (int i = 0; i < 4; i++)
        largest = fmax(largest, fabs(wanted.e[i]));
    for (int size = STEPS; size <= STEPS * LARGEST; size++) {
        int tried[4];
        for (int i = 0; i < 4; i++)
            tried[i] = (int)lround(wanted.e[i] / largest * size / STEPS);
        const double off = degrees_off(wanted, tried);
        if (off < least - 1e-9) {
            least = off;
            for (int i = 0; i < 4; i++)
                numbers[i] = tried[i];
        }
    }
    return least;
}

/* An angle from -360 to 360. */
static int read_angle(const char *text, double *angle)
{
    char *end;
    *angle = strtod(text, &end);
    return end != text && *end == '\0' && fabs(*angle) <= 360;
}

int main(int argc, char **argv)
{
    double left, up, tilt;
    int numbers[4];
    if (argc != 4 || !read_angle(argv[1], &left) || !read_angle(argv[2], &up) || !read_angle(argv[3], &tilt)) {
        fprintf(stderr, "usage: wanted_turn LEFT UP TILT, three angles from -360 to 360 degrees\n");
        return 2;
    }
    const double off = nearest_turn(then(then(about(2, left), about(3, up)), about(1, tilt)), numbers);
    printf("Left by %g, up by %g, tilted to the right by %g degrees: the turn (%d, %d, %d, %d), which is off by %.2f degrees.\n",
        left, up, tilt, numbers[0], numbers[1], numbers[2], numbers[3], off);
    return 0;
}
