/* The anchors: headers of edition D, one each, that C made for speed was counted on. */
#ifndef BENCH_ANCHORS_H
#define BENCH_ANCHORS_H

#include "headers.h"

enum { ANCHORS = 22 };

/* Builds the anchor of this number, from 1 up to ANCHORS, into empty headers. Answers its name. */
const char *build_anchor(unsigned number, struct headers *headers);

#endif
