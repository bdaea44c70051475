/* The instances, by what they call. */
#ifndef SECOND_INSTANCES_H
#define SECOND_INSTANCES_H

#include "instances_bench.h"

void run_reading(struct bench *bench);
void run_writing(struct bench *bench);
void run_values(struct bench *bench);
void run_listing(struct bench *bench);
void run_words(struct bench *bench);
void run_present(struct bench *bench);
void run_lookup(struct bench *bench);
void run_which(struct bench *bench);
void run_relay(struct bench *bench);
void run_figures(struct bench *bench);

#endif
