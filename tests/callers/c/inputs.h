/* The inputs of calls: plausible most of the time, else at an edge or anything at all. */
#ifndef INPUTS_H
#define INPUTS_H

#include "source.h"
#include "tco.h"

/* The most bytes that the callers lend. */
enum {
    STORE_MOST = 2100,
    SETTINGS_MOST = 40,
    FLASH_MOST = 24,
    BLOCK_MOST = 20,
    DATA_MOST = 600,
    PRINTOUT_MOST = TCO_PRINTOUT_SIZE + 100
};

struct transaction {
    tco_transaction attributes;
    uint8_t bytes[DATA_MOST];
    size_t length;
};

/* A sound state: fresh, in use, or with little or no room left in its account. */
tco_state draw_state(struct source *source);
/* Changes one number of a state or its check, often so that it is not sound, or all. */
void alter_state(struct source *source, tco_state *state);

/* Sound settings, and any bytes after them. */
void draw_settings(struct source *source, uint8_t settings[SETTINGS_MOST]);
/* Changes one byte of settings that decides whether they are sound, or all. */
void alter_settings(struct source *source, uint8_t settings[SETTINGS_MOST]);

/* A transaction for this state: often one that goes on with its open packet, most of the time with
   the right code. */
struct transaction draw_transaction(struct source *source, const tco_state *state);

/* A length of data, often about the most that has a code. */
size_t draw_coded_length(struct source *source);

/* Fields of status data that are allowed, but for one or two of them at times. */
tco_status draw_status(struct source *source);
/* A status block and its size: one that can be read, but for one or two fields or its size at times,
   or any bytes. */
size_t draw_block(struct source *source, uint8_t block[BLOCK_MOST]);

/* A Set Link word. */
uint32_t draw_word(struct source *source);

/* A length to lend: most of the time the usual one, else any, often near what is needed. */
size_t draw_length(struct source *source, size_t usual, size_t needed, size_t most);

#endif
