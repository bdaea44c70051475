/* Runs document 01's checked instances and the bounds around them. */
#include "instances.h"

#include <stdio.h>

int main(void)
{
    static struct bench bench;
    run_reading(&bench);
    run_writing(&bench);
    run_values(&bench);
    run_listing(&bench);
    run_words(&bench);
    run_present(&bench);
    run_lookup(&bench);
    run_which(&bench);
    run_relay(&bench);
    run_figures(&bench);
    printf("%u passed, %u failed\n", bench.passed, bench.failed);
    return bench.failed == 0 ? 0 : 1;
}
