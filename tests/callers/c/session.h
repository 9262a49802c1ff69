/* A session of calls, each made of the static library and of the second program and compared. */
#ifndef SESSION_H
#define SESSION_H

#include "source.h"

/*
 * Makes at most so many calls on one state, store and settings that start anew, and gives how many
 * it made. Prints what differs and aborts where the two do not agree or a guard byte has changed.
 */
uint64_t session(struct source *source, uint64_t most_calls);

#endif
