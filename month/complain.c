#include "complain.h"

#include "../view/value.h"

#include <stdio.h>

int complain(int status, const char *about, const char *fault)
{
    fprintf(stderr, "figures: ");
    print_name(stderr, about);
    fprintf(stderr, ": %s\n", fault);
    return status;
}
