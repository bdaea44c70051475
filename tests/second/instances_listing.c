/* The text of the listing program. */
#include "instances.h"

#include <string.h>

static bool lists(const struct header *header, const char *expected)
{
    char text[1024] = "";
    FILE *listing = tmpfile();
    if (listing == NULL)
        return false;
    second_listing(EDITION_D, header->bytes, header->length, listing);
    rewind(listing);
    text[fread(text, 1, sizeof text - 1, listing)] = '\0';
    fclose(listing);
    return strcmp(text, expected) == 0;
}

void run_listing(struct bench *bench)
{
    start_with(&bench->header, "fe00141220" DATE "03026100010128");
    judge(bench, "listing", lists(&bench->header, "0\t20\t5\n2\t0\t0\t0\t5\t-\n3\t0\t3\t1\t2\t12\n5\t0\t5\t9\t3\t" DATE "\n"
                                                  "13\t0\t14\t0\t5\t-\n15\t1\t16\t1\t5\t61\n"));
    start_with(&bench->header, "");
    judge(bench, "listing of nothing", lists(&bench->header, "2\t0\t0\n"));
    add_run(&bench->header, 0x00, SECOND_LISTING_INPUT);
    judge(bench, "listing of the longest input", lists(&bench->header, "3\t0\t0\n"));
    add_run(&bench->header, 0x00, 1);
    judge(bench, "listing of a longer input", lists(&bench->header, "too long\n"));
}
