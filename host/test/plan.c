/* The planner's own archive alone, for a host that only plans, against the second implementation.
 *   plan [calls] [seed] */
#include "compare.h"
#include "tries.h"

#include <stdio.h>
#include <stdlib.h>

int main(int argc, char **argv)
{
    unsigned long long most = argc > 1 ? strtoull(argv[1], NULL, 10) : 20000;
    sow(argc > 2 ? strtoull(argv[2], NULL, 10) : 1);
    while (calls < most)
        try_fill();
    same_all();
    printf("%llu fills by the planner's own archive, no difference; 0: %llu 2: %llu 12: %llu 13: %llu 15: %llu\n", calls, seen[0], seen[2], seen[12],
           seen[13], seen[15]);
    return !(seen[0] && seen[2] && seen[12] && seen[13] && seen[15]);
}
