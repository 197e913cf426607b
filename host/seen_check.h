/* What a run of the comparison has seen of codes and covers from elsewhere: the sorts of answers, and of the refusals. */
#ifndef SEEN_CHECK_H
#define SEEN_CHECK_H

#include "generate_check.h"

/* Notes a check and its answer, given room: the text of `answer` bytes, or a refusal. */
void seen_check(const struct generated_check *check, int64_t answer, const uint8_t *text);

void seen_check_print(void);
bool seen_check_each(void);

#endif
