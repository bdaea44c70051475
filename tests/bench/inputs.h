/* The headers that are measured, all of edition D: six kinds of traffic, each one header or many; and behind them the anchors. */
#ifndef BENCH_INPUTS_H
#define BENCH_INPUTS_H

#include "anchors.h"

enum { INPUTS = 6 };

/* Builds the input of this number, from 1 up to INPUTS, and behind them the anchors. Answers its name; ends the program if a sample
   cannot be read. */
const char *build_input(unsigned number, struct headers *headers);

#endif
