/* The formulas of the cube that both conversions in double precision go by. */
#ifndef CUBE_H
#define CUBE_H

#include <math.h>

struct ray {
    double x, y, z;
};

/* Where a ray meets the cube: the face, and how far across and down, from -1 to 1. */
struct facing {
    int face;
    double u, v;
};

static inline int clip(int number, int largest)
{
    return number < 0 ? 0 : number > largest ? largest : number;
}

/* A column and a row of a face. */
struct spot {
    int m, n;
};

/* The spot of a face that lies at a column and a row of its slot, where the face has so many clockwise quarter turns there. */
static inline struct spot turned_back(int quarter_turns, int size, int column, int row)
{
    const int last = size - 1;
    switch (quarter_turns) {
    case 1: return (struct spot){row, last - column};
    case 2: return (struct spot){last - column, last - row};
    case 3: return (struct spot){last - row, column};
    default: return (struct spot){column, row};
    }
}

/* The turn's matrix, divided by the sum of the four squares. */
static inline void set_matrix(const int turn[4], double matrix[3][3])
{
    const double e0 = turn[0], e1 = turn[1], e2 = turn[2], e3 = turn[3];
    const double squares = e0 * e0 + e1 * e1 + e2 * e2 + e3 * e3;
    const double rows[3][3] = {
        {e0 * e0 + e1 * e1 - e2 * e2 - e3 * e3, 2 * (e1 * e2 - e0 * e3), 2 * (e1 * e3 + e0 * e2)},
        {2 * (e1 * e2 + e0 * e3), e0 * e0 - e1 * e1 + e2 * e2 - e3 * e3, 2 * (e2 * e3 - e0 * e1)},
        {2 * (e1 * e3 - e0 * e2), 2 * (e2 * e3 + e0 * e1), e0 * e0 - e1 * e1 - e2 * e2 + e3 * e3},
    };
    for (int i = 0; i < 3; i++)
        for (int j = 0; j < 3; j++)
            matrix[i][j] = rows[i][j] / squares;
}

/* The ray of a place on a face (Table 3). */
static inline struct ray ray_of(int face, double a, double b)
{
    switch (face) {
    case 0: return (struct ray){1, -b, -a};
    case 1: return (struct ray){-1, -b, a};
    case 2: return (struct ray){a, 1, b};
    case 3: return (struct ray){a, -1, -b};
    case 4: return (struct ray){a, -b, 1};
    default: return (struct ray){-a, -b, -1};
    }
}

static inline struct ray turned(const double matrix[3][3], struct ray ray)
{
    return (struct ray){
        matrix[0][0] * ray.x + matrix[0][1] * ray.y + matrix[0][2] * ray.z,
        matrix[1][0] * ray.x + matrix[1][1] * ray.y + matrix[1][2] * ray.z,
        matrix[2][0] * ray.x + matrix[2][1] * ray.y + matrix[2][2] * ray.z,
    };
}

/* Table 4. */
static inline struct facing facing_of(struct ray ray)
{
    const double x = fabs(ray.x), y = fabs(ray.y), z = fabs(ray.z);
    int face;
    double u, v;
    if (x >= y && x >= z) {
        face = ray.x > 0 ? 0 : 1;
        u = (ray.x > 0 ? -ray.z : ray.z) / x;
        v = -ray.y / x;
    } else if (y >= z) {
        face = ray.y > 0 ? 2 : 3;
        u = ray.x / y;
        v = (ray.y > 0 ? ray.z : -ray.z) / y;
    } else {
        face = ray.z > 0 ? 4 : 5;
        u = (ray.z > 0 ? ray.x : -ray.x) / z;
        v = -ray.y / z;
    }
    return (struct facing){face, u, v};
}

#endif
