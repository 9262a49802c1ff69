#include "inputs.h"

#include <string.h>

enum { PACKETS = 0, FRAGMENTS = 1, BYTES = 2 };
/* All of a state before its check are numbers. */
enum { NUMBERS = offsetof(tco_state, check) / sizeof(uint64_t) };
/* More data bytes have no code. */
enum { CODED_MOST = UINT8_MAX };

static void make_total_right(tco_account *account)
{
    account->total = account->open_fragments + account->taken + account->refused;
    for (int row = 0; row < TCO_ROWS; row++)
        account->total += account->grid[TCO_COLUMNS * row + FRAGMENTS];
}

tco_state draw_state(struct source *source)
{
    tco_state state = {.maximum = TCO_MAXIMUM, .check = one_in(source, 2)};
    tco_account *account = &state.account;
    if (one_in(source, 2))
        state.maximum = between(source, 1, TCO_MAXIMUM);
    if (one_in(source, 2))
        return state;
    uint64_t many = PICK(source, 2, 1000, TCO_LIMIT / (TCO_ROWS + 1));
    for (int row = 0; row < TCO_ROWS; row++) {
        uint64_t *numbers = &account->grid[TCO_COLUMNS * row];
        uint64_t fragments = below(source, many);
        numbers[FRAGMENTS] = fragments;
        numbers[PACKETS] = row >= TCO_ROW_ABORTED ? 0 : between(source, 0, fragments);
        numbers[BYTES] =
            row >= TCO_ROW_BAD_LENGTH ? 0 : between(source, 0, TCO_MAXIMUM * fragments);
    }
    account->open_fragments = PICK(source, 0, 0, 1, 2, 6, 7);
    account->open_bytes =
        between(source, account->open_fragments, state.maximum * account->open_fragments);
    account->taken = below(source, 1000);
    account->refused = below(source, 1000);
    make_total_right(account);
    if (one_in(source, 4)) {
        account->refused += TCO_LIMIT - account->total - PICK(source, 0, 1, 2, 30);
        make_total_right(account);
    }
    return state;
}

static void alter_number(struct source *source, uint64_t *number)
{
    const uint64_t bit_32 = UINT64_C(1) << 32;
    const uint64_t bit_63 = UINT64_C(1) << 63;
    *number = PICK(source, *number + 1, *number - 1, *number ^ bit_32, *number ^ bit_63, 0, 1,
                   TCO_MAXIMUM, TCO_MAXIMUM + 1, 256, TCO_LIMIT, TCO_LIMIT + 1,
                   UINT64_MAX / TCO_MAXIMUM, UINT64_MAX / TCO_MAXIMUM + 1, bit_63, UINT64_MAX);
}

/* Bytes that the maximum does not allow for so many open fragments, though a larger one may. */
static void open_past_maximum(struct source *source, tco_state *state)
{
    tco_account *account = &state->account;
    account->open_fragments = PICK(source, 1, 2, 7);
    account->open_bytes = between(source, state->maximum * account->open_fragments + 1,
                                  TCO_MAXIMUM * account->open_fragments + 1);
    make_total_right(account);
}

void alter_state(struct source *source, tco_state *state)
{
    uint64_t numbers[NUMBERS];
    switch (below(source, 8)) {
    case 0:
        for (int i = 0; i < NUMBERS; i++)
            numbers[i] = any(source);
        memcpy(state, numbers, sizeof numbers);
        state->check = (uint8_t)below(source, 256);
        break;
    case 1:
        alter_number(source, &state->maximum);
        return;
    case 2:
        open_past_maximum(source, state);
        return;
    case 3:
        state->check = (uint8_t)PICK(source, 0, 1, 2, 3, 0x80, 0x81, UINT8_MAX);
        return;
    default:
        memcpy(numbers, state, sizeof numbers);
        alter_number(source, &numbers[below(source, NUMBERS)]);
        memcpy(state, numbers, sizeof numbers);
    }
    if (one_in(source, 2))
        make_total_right(&state->account);
}

static uint8_t draw_control(struct source *source)
{
    return (uint8_t)PICK(source, 0x40, 0x41, 0x48, 0x49, 0x61, 0x6f, 0xc1, 0xc9, 0xdf);
}

void draw_settings(struct source *source, uint8_t settings[SETTINGS_MOST])
{
    const uint8_t cbdm = 0x80;
    const uint8_t mac_kept = 1;
    fill(source, settings, SETTINGS_MOST);
    settings[0] = draw_control(source);
    settings[1] = (uint8_t)below(source, 4);
    if (settings[0] & cbdm)
        settings[1] |= mac_kept;
}

void alter_settings(struct source *source, uint8_t settings[SETTINGS_MOST])
{
    if (one_in(source, 8))
        fill(source, settings, SETTINGS_MOST);
    else
        settings[below(source, 2)] = (uint8_t)below(source, 256);
}

static uint8_t draw_command(struct source *source, bool is_open)
{
    switch (below(source, 32)) {
    case 0:
        return (uint8_t)below(source, 256);
    case 1:
        return (uint8_t)(0xc0 | below(source, 64));
    case 2:
    case 3:
        return TCO_COMMAND_RECEIVE_ENABLE;
    case 4:
        return (uint8_t)PICK(source, TCO_COMMAND_FIRST, TCO_COMMAND_MIDDLE, TCO_COMMAND_LAST,
                             TCO_COMMAND_WHOLE);
    default:
        if (is_open)
            return one_in(source, 8) ? TCO_COMMAND_LAST : TCO_COMMAND_MIDDLE;
        return one_in(source, 4) ? TCO_COMMAND_WHOLE : TCO_COMMAND_FIRST;
    }
}

static size_t draw_fragment_length(struct source *source, const tco_state *state)
{
    uint64_t maximum = state->maximum;
    uint64_t to_edge;
    switch (below(source, 8)) {
    case 0:
        return PICK(source, 0, 1, 14, maximum - 1, maximum, maximum + 1, 240, 241,
                    draw_coded_length(source));
    case 1:
        to_edge = PICK(source, 16, 17, 59, 60, 61, 1535, 1536, 1537) - state->account.open_bytes;
        return to_edge <= maximum ? to_edge : maximum;
    case 2:
        return 1 + below(source, maximum);
    default:
        return maximum;
    }
}

size_t draw_coded_length(struct source *source)
{
    return draw_length(source, 250 + below(source, 11), CODED_MOST, DATA_MOST);
}

/* The code that bytes give, behind those of which `code` is the code. */
static uint8_t code_of(uint8_t code, const uint8_t *bytes, size_t length)
{
    for (size_t i = 0; i < length; i++) {
        code ^= bytes[i];
        for (int bit = 0; bit < 8; bit++)
            code = (uint8_t)(code << 1 ^ (code & 0x80 ? 0x07 : 0));
    }
    return code;
}

/* The right code most of the time, else with one bit turned, or any. Data that have none get that of
   a count cut to a byte. */
static uint8_t draw_code(struct source *source, const struct transaction *drawn)
{
    const uint8_t before[] = {drawn->attributes.address, drawn->attributes.command,
                              (uint8_t)drawn->length};
    uint8_t code = code_of(code_of(0, before, sizeof before), drawn->bytes, drawn->length);
    switch (below(source, 32)) {
    case 0:
        return (uint8_t)(code ^ 1 << below(source, 8));
    case 1:
        return (uint8_t)below(source, 256);
    default:
        return code;
    }
}

struct transaction draw_transaction(struct source *source, const tco_state *state)
{
    struct transaction drawn;
    tco_transaction *attributes = &drawn.attributes;
    attributes->address = (uint8_t)below(source, 256);
    attributes->command = draw_command(source, state->account.open_fragments > 0);
    attributes->link_up = !one_in(source, 8);
    if (attributes->command == TCO_COMMAND_RECEIVE_ENABLE)
        drawn.length = PICK(source, 1, 1, 1, 14, 14, 14, 0, 2, 13, 15, 255, 256 + 1, 256 + 14);
    else
        drawn.length = draw_fragment_length(source, state);
    fill(source, drawn.bytes, sizeof drawn.bytes);
    if (attributes->command == TCO_COMMAND_RECEIVE_ENABLE && !one_in(source, 4))
        drawn.bytes[0] = draw_control(source);
    attributes->code = draw_code(source, &drawn);
    return drawn;
}

static tco_status draw_allowed_status(struct source *source)
{
    tco_status drawn = {.length = (uint16_t)between(source, 1, 1536),
                        .vlan = (uint16_t)below(source, 1 << 16),
                        .decision_match = one_in(source, 2),
                        .vlan_match = one_in(source, 2)};
    drawn.decision_index = drawn.decision_match ? (uint8_t)below(source, 8) : 0;
    drawn.vlan_index = drawn.vlan_match ? (uint8_t)below(source, 8) : 0;
    return drawn;
}

/* A length, or the word of one in a block, at an edge or with reserved bits. */
static uint16_t draw_length_word(struct source *source, uint16_t length)
{
    return (uint16_t)PICK(source, 0, 1, 1536, 1537, 1 << 14, UINT16_MAX, length | 1 << 14,
                          length | 1 << 15);
}

static void alter_status(struct source *source, tco_status *status)
{
    switch (below(source, 3)) {
    case 0:
        status->length = draw_length_word(source, status->length);
        break;
    case 1:
        status->decision_index = (uint8_t)PICK(source, 0, 1, 7, 8, 15, 16, UINT8_MAX);
        break;
    default:
        status->vlan_index = (uint8_t)PICK(source, 0, 1, 7, 8, 16, UINT8_MAX);
    }
}

tco_status draw_status(struct source *source)
{
    tco_status drawn = draw_allowed_status(source);
    for (uint64_t left = below(source, 3); left > 0; left--)
        alter_status(source, &drawn);
    return drawn;
}

/* The words of a block, and bits of its MNG status. */
enum { LENGTH, PACKET_STATUS, VLAN, MNG_STATUS, WORDS };
enum { VLAN_INDEX = 0, VLAN_MATCH = 3, DECISION_INDEX = 4, DECISION_MATCH = 8, MNG_RESERVED = 9 };

static void draw_allowed_words(struct source *source, uint16_t words[WORDS])
{
    tco_status drawn = draw_allowed_status(source);
    words[LENGTH] = drawn.length;
    words[PACKET_STATUS] = 0x0001;
    words[VLAN] = drawn.vlan;
    words[MNG_STATUS] =
        (uint16_t)(drawn.decision_match << DECISION_MATCH | drawn.decision_index << DECISION_INDEX |
                   drawn.vlan_match << VLAN_MATCH | drawn.vlan_index << VLAN_INDEX);
}

static void turn_bit(struct source *source, uint16_t *word, int lowest, int highest)
{
    *word ^= (uint16_t)(1 << (lowest + (int)below(source, (uint64_t)(highest - lowest + 1))));
}

/* Changes one field of a block, often so that it is bad, or any bit. */
static void alter_words(struct source *source, uint16_t words[WORDS])
{
    switch (below(source, 6)) {
    case 0:
        words[LENGTH] = draw_length_word(source, words[LENGTH]);
        break;
    case 1:
        words[PACKET_STATUS] = (uint16_t)PICK(source, 0, 1, 2, 3, 0x0100, 0x8001, UINT16_MAX);
        break;
    case 2:
        turn_bit(source, &words[MNG_STATUS], MNG_RESERVED, 15);
        break;
    case 3:
        turn_bit(source, &words[MNG_STATUS], DECISION_INDEX, DECISION_MATCH);
        break;
    case 4:
        turn_bit(source, &words[MNG_STATUS], VLAN_INDEX, VLAN_MATCH);
        break;
    default:
        turn_bit(source, &words[below(source, WORDS)], 0, 15);
    }
}

size_t draw_block(struct source *source, uint8_t block[BLOCK_MOST])
{
    uint16_t words[WORDS];
    draw_allowed_words(source, words);
    for (uint64_t left = PICK(source, 0, 1, 1, 2, 2); left > 0; left--)
        alter_words(source, words);
    fill(source, block, BLOCK_MOST);
    if (!one_in(source, 8)) {
        for (int i = 0; i < WORDS; i++) {
            block[2 * i] = (uint8_t)words[i];
            block[2 * i + 1] = (uint8_t)(words[i] >> 8);
        }
    }
    return draw_length(source, TCO_STATUS_SIZE, TCO_STATUS_SIZE, BLOCK_MOST);
}

uint32_t draw_word(struct source *source)
{
    uint32_t word = (uint32_t)below(source, 1 << 12);
    if (one_in(source, 4))
        return word | UINT32_C(1) << below(source, 32);
    return word & ~UINT32_C(0xe0);
}

size_t draw_length(struct source *source, size_t usual, size_t needed, size_t most)
{
    if (!one_in(source, 8))
        return usual;
    if (one_in(source, 2))
        return PICK(source, 0, 1, needed - 1, needed, needed + 1, most);
    return below(source, most + 1);
}
