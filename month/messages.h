/* The messages that are added to the figures: files, those in a folder, and those that standard input names. */
#ifndef MONTH_MESSAGES_H
#define MONTH_MESSAGES_H

#include <stdint.h>

/* Takes a word, an edition and figures. Adds the message in the file of that name, or those in the files of that folder, or, for `-`, those that standard
   input names, one on a line. Answers DONE, or another status behind a complaint. */
int add_named(const char *word, uint32_t edition, uint64_t *figures);

/* Takes the line of progress away, if there was one. */
void end_progress(void);

#endif
