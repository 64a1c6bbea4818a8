/*
 * The tables of `make bench`. They are measured and printed with their verdicts, and give whether each verdict is "yes". Before
 * that, it is checked that the conversions or weighted errors in double precision do the same work but for roundings; if not, the
 * program ends with DISAGREEMENT.
 */
#ifndef TABLES_H
#define TABLES_H

int print_conversion_tables(void);
int print_score_table(void);

#endif
