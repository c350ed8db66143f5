/* tables.h: what is printed. Each table is 0 if an answer is not what it should be. */
#ifndef TABLES_H
#define TABLES_H

int print_check_table(const char *sample);
int print_engine_table(void);
int print_growth_table(void);
int print_translate_table(void);

#endif
