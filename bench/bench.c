/* bench.c: times the library against the same written by hand in C. Usage: bench SAMPLE */
#include <stdio.h>

#include "tables.h"

int main(int count, char **names)
{
    int equal;
    if (count != 2) {
        fprintf(stderr, "usage: bench SAMPLE\n");
        return 2;
    }
    equal = print_check_table(names[1]);
    printf("\n");
    equal &= print_engine_table();
    printf("\n");
    equal &= print_growth_table();
    printf("\n");
    equal &= print_translate_table();
    return equal ? 0 : 1;
}
