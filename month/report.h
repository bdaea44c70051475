/* The report of document 02, order 13. It has every figure, so it is what is saved, and what is joined. */
#ifndef MONTH_REPORT_H
#define MONTH_REPORT_H

#include <stdint.h>

/* Takes figures. Prints their report. */
void print_report(const uint64_t *figures);

/* Takes a file's name and figures. Leaves their report in that file, whole, or what was there before. Answers DONE, or another status behind a complaint. */
int save_report(const char *name, const uint64_t *figures);

/* Takes a file's name and figures. Adds the figures that the file is the report of. Answers DONE, or another status behind a complaint, and then the figures
   are as before: where it is no report to the byte, or both together are of more than 1,000,000 messages. */
int join_report(const char *name, uint64_t *figures);

#endif
