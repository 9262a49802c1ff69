/*
 * A driver's loop: transactions come in from the management bus, packets go out to the network, and
 * the account says what became of each. The list of transactions and the printing of packets stand
 * for the bus and the network of the cabinet.
 */
#include <stdio.h>
#include <stdlib.h>

#include "tco.h"

/* Whether the controller sends a packet error code behind each transaction. If false, address and
   code are not read. */
static const bool check = true;

/* The address byte of a write to this part. */
#define ADDRESS 0x92

struct transaction {
    tco_transaction attributes;
    const uint8_t *bytes;
    size_t length;
};

/* The next transaction from the bus; false when there is none. */
static bool bus_next(struct transaction *next)
{
    static const uint8_t bytes[32] = {0x41};
    static const struct transaction all[] = {
        {{ADDRESS, TCO_COMMAND_WHOLE, 0xdb, true}, bytes, 20},
        {{ADDRESS, TCO_COMMAND_FIRST, 0xf0, true}, bytes, 32},
        {{ADDRESS, TCO_COMMAND_FIRST, 0x70, true}, bytes, 10},
        {{ADDRESS, TCO_COMMAND_LAST, 0xb9, true}, bytes, 5},
        {{ADDRESS, TCO_COMMAND_MIDDLE, 0x78, true}, bytes, 3},
        {{ADDRESS, TCO_COMMAND_RECEIVE_ENABLE, 0xa5, true}, bytes, 1},
    };
    static size_t done = 0;
    if (done == sizeof all / sizeof *all)
        return false;
    *next = all[done++];
    return true;
}

/* Tells the management controller that its fragment belongs to no packet. */
static void bus_abort(void)
{
    printf("abort status\n");
}

static void network_send(const uint8_t *packet, size_t length)
{
    printf("packet of %zu bytes:", length);
    for (size_t i = 0; i < length; i++)
        printf(" %02x", packet[i]);
    printf("\n");
}

/* What the driver keeps from call to call. */
static tco_state state;
static uint8_t store[TCO_STORE_SIZE];
static uint8_t settings[TCO_SETTINGS_SIZE];

static void print_account(void)
{
    uint8_t printout[TCO_PRINTOUT_SIZE];
    fwrite(printout, 1, tco_print_account(state.account, printout, sizeof printout), stdout);
}

static bool start(void)
{
    tco_made made = tco_fresh_state(32, check);
    state = made.state;
    return made.answer == TCO_DONE && tco_fresh_settings(settings, sizeof settings) == TCO_DONE;
}

static tco_reply transact(struct transaction next)
{
    return tco_transact(&state, store, sizeof store, settings, sizeof settings, next.attributes,
                        next.bytes, next.length);
}

int main(void)
{
    struct transaction next;

    if (!start())
        return EXIT_FAILURE;

    while (bus_next(&next)) {
        tco_reply reply = transact(next);
        if (reply.answer == TCO_FULL) {
            print_account();
            start();
            reply = transact(next);
        }
        switch (reply.answer) {
        case TCO_SENT:
            network_send(store, tco_shown(store, sizeof store, reply.sent));
            break;
        case TCO_ABORTED:
            bus_abort();
            break;
        case TCO_NO_ROOM:
        case TCO_NOT_SOUND:
            fprintf(stderr, "not counted: answer %u\n", (unsigned)reply.answer);
            return EXIT_FAILURE;
        default:
            break;
        }
    }

    print_account();
    return EXIT_SUCCESS;
}
