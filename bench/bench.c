/*
 * Measures welchodrys_convert and welchodrys_score side by side with the same work in double precision: two tables for the one and
 * a table for the other (conversion_table.c, score_table.c), with a verdict below each.
 *
 * Ends with status 0 where all verdicts are "yes", with 1 where one is "no", and with 2, without the table in question, where a
 * call refuses or what is compared with it does other work.
 */
#include "harness.h"
#include "tables.h"

#include <stdio.h>
#include <string.h>

/* The kind of processor, where the system tells it. */
static void print_machine(void)
{
    char line[256];
    FILE *file = fopen("/proc/cpuinfo", "r");
    if (file == NULL)
        return;
    while (fgets(line, sizeof line, file) != NULL)
        if (strncmp(line, "model name", 10) == 0 && strchr(line, ':') != NULL) {
            printf("Machine:%s", strchr(line, ':') + 1);
            break;
        }
    fclose(file);
}

int main(void)
{
    printf("Face size %d, depth %d, %d samples; the shortest of %d interleaved runs.\n", SIZE, DEPTH, SAMPLES, RUNS);
    print_machine();
    printf("\n");
    const int conversion_fast_enough = print_conversion_tables();
    printf("\n");
    const int score_fast_enough = print_score_table();
    return conversion_fast_enough && score_fast_enough ? 0 : 1;
}
