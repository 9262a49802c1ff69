#include "session.h"

#include <inttypes.h>
#include <stdio.h>
#include <stdlib.h>
#include <string.h>

#include "guarded.h"
#include "inputs.h"
#include "second.h"

/* What the calls of a session share. */
struct kept {
    struct source *source;
    uint64_t calls;
    const char *operation;
    tco_state state;
    uint8_t store[STORE_MOST];
    uint8_t settings[SETTINGS_MOST];
    uint8_t flash[FLASH_MOST];
    uint32_t in_force;
    /* Lent most of the time. */
    size_t store_length;
    size_t settings_length;
};

/* What each kind of buffer is lent in. */
static struct guarded of_state, of_store, of_settings, of_bytes;

static void make_guarded(void)
{
    if (of_state.room != NULL)
        return;
    of_state = guarded_make();
    of_store = guarded_make();
    of_settings = guarded_make();
    of_bytes = guarded_make();
}

static size_t lent_store_length(struct kept *kept)
{
    return draw_length(kept->source, kept->store_length, TCO_STORE_SIZE, STORE_MOST);
}

static size_t lent_settings_length(struct kept *kept)
{
    return draw_length(kept->source, kept->settings_length, TCO_SETTINGS_SIZE, SETTINGS_MOST);
}

static void *lend(struct kept *kept, struct guarded *guarded, const void *bytes, size_t length)
{
    return guarded_lend(guarded, bytes, length, one_in(kept->source, 2));
}

static void failed(const struct kept *kept, const char *what)
{
    fprintf(stderr, "call %" PRIu64 " of the session, %s: %s\n", kept->calls, kept->operation,
            what);
    abort();
}

static void same(const struct kept *kept, const char *what, uint64_t got, uint64_t wanted)
{
    if (got == wanted)
        return;
    fprintf(stderr, "got %" PRIu64 ", the second program has %" PRIu64 "\n", got, wanted);
    failed(kept, what);
}

static void intact(const struct kept *kept, const char *what, const struct guarded *lent)
{
    if (guarded_intact(lent))
        return;
    fprintf(stderr, "a byte beside the buffer has changed\n");
    failed(kept, what);
}

static void same_bytes(const struct kept *kept, const char *what, const struct guarded *lent,
                       const void *wanted)
{
    if (memcmp(lent->at, wanted, lent->length) != 0) {
        const uint8_t *bytes = wanted;
        size_t place = 0;
        while (lent->at[place] == bytes[place])
            place++;
        fprintf(stderr, "byte %zu of %zu\n", place, lent->length);
        same(kept, what, lent->at[place], bytes[place]);
    }
    intact(kept, what, lent);
}

/* What lies behind the check is padding, which may have any bytes. */
static void same_state(const struct kept *kept, tco_state got, tco_state wanted)
{
    uint64_t numbers[2][offsetof(tco_state, check) / sizeof(uint64_t)];
    memcpy(numbers[0], &got, sizeof *numbers);
    memcpy(numbers[1], &wanted, sizeof *numbers);
    for (size_t i = 0; i < sizeof *numbers / sizeof **numbers; i++)
        same(kept, "a number of the state", numbers[0][i], numbers[1][i]);
    same(kept, "the check of the state", got.check, wanted.check);
}

static void fresh_state(struct kept *kept)
{
    uint32_t maximum = (uint32_t)PICK(kept->source, 0, 1, 2, 239, 240, 241, 255, 256, 257,
                                      UINT32_MAX, below(kept->source, 1 << 16));
    bool check = one_in(kept->source, 2);
    tco_made got = tco_fresh_state(maximum, check);
    tco_made wanted = second_fresh_state(maximum, check);
    same(kept, "answer", got.answer, wanted.answer);
    same_state(kept, got.state, wanted.state);
}

static void fresh_settings(struct kept *kept)
{
    size_t length = lent_settings_length(kept);
    uint8_t *settings = lend(kept, &of_settings, kept->settings, length);
    uint32_t got = tco_fresh_settings(settings, length);
    uint32_t wanted = second_fresh_settings(kept->settings, length);
    same(kept, "answer", got, wanted);
    same_bytes(kept, "settings", &of_settings, kept->settings);
}

static void transact(struct kept *kept)
{
    struct source *source = kept->source;
    struct transaction drawn = draw_transaction(source, &kept->state);
    tco_state state = kept->state;
    if (one_in(source, 16))
        alter_state(source, &state);
    uint8_t settings[SETTINGS_MOST];
    memcpy(settings, kept->settings, sizeof settings);
    if (one_in(source, 16))
        alter_settings(source, settings);
    size_t store_length = lent_store_length(kept);
    size_t settings_length = lent_settings_length(kept);

    tco_state *lent_state = lend(kept, &of_state, &state, sizeof state);
    uint8_t *lent_store = lend(kept, &of_store, kept->store, store_length);
    uint8_t *lent_settings = lend(kept, &of_settings, settings, settings_length);
    const uint8_t *lent_bytes = lend(kept, &of_bytes, drawn.bytes, drawn.length);
    tco_reply got =
        tco_transact(lent_state, lent_store, store_length, lent_settings, settings_length,
                     drawn.attributes, lent_bytes, drawn.length);
    tco_reply wanted =
        second_transact(&state, kept->store, store_length, settings, settings_length,
                        drawn.attributes, drawn.bytes, drawn.length);
    same(kept, "answer", got.answer, wanted.answer);
    same(kept, "sent length", got.sent, wanted.sent);
    same_state(kept, *lent_state, state);
    intact(kept, "state", &of_state);
    same_bytes(kept, "store", &of_store, kept->store);
    same_bytes(kept, "settings", &of_settings, settings);
    same_bytes(kept, "data bytes", &of_bytes, drawn.bytes);

    /* What was altered and then not counted may be rejected for good. */
    if (wanted.answer <= TCO_ENABLED || wanted.answer == TCO_BAD_CHECK) {
        kept->state = state;
        memcpy(kept->settings, settings, sizeof settings);
    }
}

static void check_code(struct kept *kept)
{
    struct source *source = kept->source;
    uint8_t address = (uint8_t)below(source, 256);
    uint8_t command = (uint8_t)below(source, 256);
    uint8_t bytes[DATA_MOST];
    size_t length = draw_coded_length(source);
    fill(source, bytes, sizeof bytes);
    const uint8_t *lent = lend(kept, &of_bytes, bytes, length);
    tco_code got = tco_check_code(address, command, lent, length);
    tco_code wanted = second_check_code(address, command, bytes, length);
    same(kept, "answer", got.answer, wanted.answer);
    same(kept, "code", got.code, wanted.code);
    same_bytes(kept, "data bytes", &of_bytes, bytes);
}

static void shown(struct kept *kept)
{
    size_t store_length = lent_store_length(kept);
    size_t length =
        PICK(kept->source, 0, 1, 60, 1535, 1536, 1537, store_length - 1, store_length,
             store_length + 1, (size_t)1 << 32 | 60, SIZE_MAX, below(kept->source, STORE_MOST));
    const uint8_t *store = lend(kept, &of_store, kept->store, store_length);
    size_t got = tco_shown(store, store_length, length);
    same(kept, "length", got, second_shown(kept->store, store_length, length));
    same_bytes(kept, "store", &of_store, kept->store);
}

typedef tco_part in_force(const uint8_t *, size_t, const uint8_t *, size_t);

static void address(struct kept *kept, in_force *archive, in_force *second)
{
    struct source *source = kept->source;
    uint8_t settings[SETTINGS_MOST];
    memcpy(settings, kept->settings, sizeof settings);
    if (one_in(source, 4))
        alter_settings(source, settings);
    size_t settings_length = lent_settings_length(kept);
    size_t flash_length = draw_length(source, TCO_FLASH_SIZE, TCO_FLASH_SIZE, FLASH_MOST);
    const uint8_t *lent_settings = lend(kept, &of_settings, settings, settings_length);
    const uint8_t *lent_flash = lend(kept, &of_bytes, kept->flash, flash_length);
    tco_part got = archive(lent_settings, settings_length, lent_flash, flash_length);
    tco_part wanted = second(settings, settings_length, kept->flash, flash_length);
    same(kept, "source", got.source, wanted.source);
    same(kept, "start", got.start, wanted.start);
    same(kept, "length", got.length, wanted.length);
    same_bytes(kept, "settings", &of_settings, settings);
    same_bytes(kept, "Flash", &of_bytes, kept->flash);
}

static void mac_in_force(struct kept *kept)
{
    address(kept, tco_mac_in_force, second_mac_in_force);
}

static void ipv4_in_force(struct kept *kept)
{
    address(kept, tco_ipv4_in_force, second_ipv4_in_force);
}

static void write_status(struct kept *kept)
{
    tco_status fields = draw_status(kept->source);
    tco_status_written got = tco_write_status(fields);
    tco_status_written wanted = second_write_status(fields);
    same(kept, "answer", got.answer, wanted.answer);
    same(kept, "field", got.field, wanted.field);
    for (int i = 0; i < TCO_STATUS_SIZE; i++)
        same(kept, "byte of the block", got.block[i], wanted.block[i]);
}

static void read_status(struct kept *kept)
{
    uint8_t block[BLOCK_MOST];
    size_t length = draw_block(kept->source, block);
    const uint8_t *lent = lend(kept, &of_bytes, block, length);
    tco_status_read got = tco_read_status(lent, length);
    tco_status_read wanted = second_read_status(block, length);
    same(kept, "answer", got.answer, wanted.answer);
    same(kept, "field", got.field, wanted.field);
    same(kept, "length", got.fields.length, wanted.fields.length);
    same(kept, "VLAN", got.fields.vlan, wanted.fields.vlan);
    same(kept, "decision match", got.fields.decision_match, wanted.fields.decision_match);
    same(kept, "decision index", got.fields.decision_index, wanted.fields.decision_index);
    same(kept, "VLAN match", got.fields.vlan_match, wanted.fields.vlan_match);
    same(kept, "VLAN index", got.fields.vlan_index, wanted.fields.vlan_index);
    same_bytes(kept, "block", &of_bytes, block);
}

static void set_link(struct kept *kept)
{
    struct source *source = kept->source;
    uint32_t word = draw_word(source);
    bool host_present = one_in(source, 8);
    uint32_t media = (uint32_t)PICK(source, TCO_COPPER, TCO_COPPER, TCO_COPPER, TCO_FIBRE, TCO_FIBRE, TCO_FIBRE, 2,
                                    256, UINT32_MAX);
    tco_link got = tco_set_link(kept->in_force, word, host_present, media);
    tco_link wanted = second_set_link(kept->in_force, word, host_present, media);
    same(kept, "response", got.response, wanted.response);
    same(kept, "reason", got.reason, wanted.reason);
    same(kept, "word in force", got.in_force, wanted.in_force);
    kept->in_force = wanted.in_force;
}

static void print_account(struct kept *kept)
{
    struct source *source = kept->source;
    tco_state state = kept->state;
    if (one_in(source, 4))
        alter_state(source, &state);
    tco_account account = state.account;
    uint8_t out[PRINTOUT_MOST];
    size_t exact = second_print_account(account, out, sizeof out);
    size_t length =
        draw_length(source, TCO_PRINTOUT_SIZE, exact > 0 ? exact : 1, sizeof out);
    fill(source, out, sizeof out);
    uint8_t *lent = lend(kept, &of_bytes, out, length);
    size_t got = tco_print_account(account, lent, length);
    same(kept, "length", got, second_print_account(account, out, length));
    same_bytes(kept, "printout", &of_bytes, out);
}

static const struct {
    const char *name;
    void (*call)(struct kept *kept);
} operations[] = {
    {"tco_transact", transact},
    {"tco_fresh_state", fresh_state},
    {"tco_fresh_settings", fresh_settings},
    {"tco_check_code", check_code},
    {"tco_shown", shown},
    {"tco_mac_in_force", mac_in_force},
    {"tco_ipv4_in_force", ipv4_in_force},
    {"tco_write_status", write_status},
    {"tco_read_status", read_status},
    {"tco_set_link", set_link},
    {"tco_print_account", print_account},
};

/* Two calls of three are transactions, so that packets are put together. */
static size_t draw_operation(struct source *source)
{
    const size_t others = sizeof operations / sizeof *operations - 1;
    size_t drawn = below(source, 3 * others);
    return drawn <= others ? drawn : 0;
}

uint64_t session(struct source *source, uint64_t most_calls)
{
    struct kept kept = {.source = source, .state = draw_state(source)};
    make_guarded();
    fill(source, kept.store, sizeof kept.store);
    fill(source, kept.flash, sizeof kept.flash);
    draw_settings(source, kept.settings);
    kept.in_force = draw_word(source);
    kept.store_length = PICK(source, TCO_STORE_SIZE, TCO_STORE_SIZE + 1, STORE_MOST);
    kept.settings_length = PICK(source, TCO_SETTINGS_SIZE, TCO_SETTINGS_SIZE + 1, SETTINGS_MOST);
    while (kept.calls < most_calls && !exhausted(source)) {
        size_t drawn = draw_operation(source);
        kept.operation = operations[drawn].name;
        kept.calls++;
        operations[drawn].call(&kept);
    }
    return kept.calls;
}
