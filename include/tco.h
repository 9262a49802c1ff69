/*
 * What a driver links from libtco.a: Brynhofta answers a management controller on the SMBus of a
 * control cabinet as the Intel I210 did.
 *
 * Whatever numbers, bytes and lengths come in, every function answers. What its caller must keep:
 *
 * - A pointer to bytes points to as many as the length behind it says. Where that is 0, it still is
 *   not null.
 * - The pointer to a state is not null, is aligned as a tco_state is, and points to one.
 * - What one call is handed does not overlap, but for buffers that it only reads. While it runs,
 *   nothing else writes there, or reads what it may write.
 * - A bool is 0 or 1.
 * - State, store and settings are handed back unaltered to the next call: else the account is no
 *   longer that of the transactions. The Set Link word in force goes back to the next tco_set_link;
 *   the account does not depend on it. All are the caller's: nothing is kept between calls.
 */
#ifndef TCO_H
#define TCO_H

#include <stdbool.h>
#include <stddef.h>
#include <stdint.h>

#ifdef __cplusplus
extern "C" {
#endif

/* Command bytes of a transaction. Every other one is unknown. */
enum {
    TCO_COMMAND_FIRST = 0x84,         /* first fragment of a packet */
    TCO_COMMAND_MIDDLE = 0x04,        /* middle fragment */
    TCO_COMMAND_LAST = 0x44,          /* last fragment */
    TCO_COMMAND_WHOLE = 0xC4,         /* whole packet in one fragment */
    TCO_COMMAND_RECEIVE_ENABLE = 0xCA /* new receive settings */
};

/* Answers. */
enum {
    TCO_DONE = 0,           /* of every call but tco_transact: done */
    TCO_JOINED = 0,         /* of tco_transact: fragment joined its packet, which stays open */
    TCO_SENT = 1,           /* packet sent, with its sent length */
    TCO_ABORTED = 2,        /* fragment not First, none open: assert the abort status */
    TCO_BAD_LENGTH = 3,     /* fragment without data, or longer than the maximum */
    TCO_OVER = 4,           /* packet of more than 1536 bytes, discarded */
    TCO_SHORT = 5,          /* packet of fewer than 17 bytes, discarded */
    TCO_LINK_DOWN = 6,      /* link down at the Last, packet discarded */
    TCO_UNKNOWN = 7,        /* unknown command */
    TCO_ENABLE_LENGTH = 8,  /* Receive Enable of neither form, 1 or 14 bytes */
    TCO_ENABLE_CONTROL = 9, /* control byte not allowed */
    TCO_ENABLE_NO_MAC = 10, /* dedicated MAC asked for, short form, and none kept */
    TCO_ENABLED = 11,       /* Receive Enable taken */
    TCO_NO_ROOM = 12,       /* store or settings too short; nothing changed */
    TCO_NOT_SOUND = 13,     /* state or settings not sound; nothing changed */
    TCO_FULL = 14,          /* account full: its total is TCO_LIMIT; nothing changed */
    TCO_BAD_STATUS = 15,    /* status field or block not allowed; `field` has the first bad one */
    TCO_BAD_MAXIMUM = 16,   /* fragment maximum not 1 to TCO_MAXIMUM */
    TCO_BAD_CHECK = 17      /* packet error code wrong, or more than 255 data bytes and so no code */
};

/* Rows of the grid, each of TCO_COLUMNS numbers: packets, fragments, bytes. */
enum {
    TCO_ROW_SENT = 0,
    TCO_ROW_SUPERSEDED = 1,
    TCO_ROW_FLUSHED = 2,
    TCO_ROW_BROKEN = 3,
    TCO_ROW_OVER = 4,
    TCO_ROW_SHORT = 5,
    TCO_ROW_LINK_DOWN = 6,
    TCO_ROW_ABORTED = 7,
    TCO_ROW_BAD_LENGTH = 8,
    TCO_ROW_BAD_CHECK = 9,
    TCO_ROWS = 10,
    TCO_COLUMNS = 3
};

enum {
    TCO_MAXIMUM = 240,      /* the largest fragment maximum */
    TCO_STORE_SIZE = 1536,  /* the least bytes of a store */
    TCO_SETTINGS_SIZE = 15, /* the least bytes of settings */
    TCO_FLASH_SIZE = 10,    /* the least bytes of a Flash block: host MAC, then IPv4 */
    TCO_STATUS_SIZE = 8,    /* the bytes of a status block */
    TCO_PRINTOUT_SIZE = 920 /* no printout has more bytes */
};

/* Fields of status data, in the order in which they are judged: with TCO_BAD_STATUS comes the first
   that is bad. */
enum {
    TCO_FIELD_NONE = 0,
    TCO_FIELD_BLOCK_SIZE = 1,     /* not TCO_STATUS_SIZE bytes */
    TCO_FIELD_LENGTH = 2,         /* not 1 to 1536, or a reserved bit of its word set */
    TCO_FIELD_PACKET_STATUS = 3,  /* not 0x0001 */
    TCO_FIELD_MNG_RESERVED = 4,   /* a reserved bit of the MNG status set */
    TCO_FIELD_DECISION_INDEX = 5, /* above 7, or above 0 without its match */
    TCO_FIELD_VLAN_INDEX = 6      /* the same */
};

/* The total of a full account. */
#define TCO_LIMIT UINT64_C(4294967295)

/* Sources of a tco_part. */
enum { TCO_NOWHERE = 0, TCO_SETTINGS = 1, TCO_FLASH = 2 };

/* Media of tco_set_link. */
enum { TCO_COPPER = 0, TCO_FIBRE = 1 };

typedef struct {
    uint64_t grid[TCO_ROWS * TCO_COLUMNS]; /* what became of fragments and packets, row after row */
    uint64_t open_fragments, open_bytes;   /* of the packet that is open */
    uint64_t taken;                        /* commands answered 11 */
    uint64_t refused;                      /* commands answered 7 to 10 */
    uint64_t total;                        /* transactions counted: those answered 0 to 11 or 17 */
} tco_account;

typedef struct {
    tco_account account;
    uint64_t maximum; /* the most data bytes of a fragment */
    uint8_t check;    /* 1: packet error codes are checked; 0: not; any other is not sound */
} tco_state;

/* A transaction but for its data. With the check off, address and code are not read. */
typedef struct {
    uint8_t address; /* the byte before the command: the address and the bit that says write */
    uint8_t command;
    uint8_t code; /* the packet error code, the byte behind the data */
    bool link_up; /* whether the link is up now */
} tco_transaction;

typedef struct {
    uint32_t answer;
    uint32_t sent; /* the sent length, 60 to 1536, where the answer is TCO_SENT, else 0 */
} tco_reply;

typedef struct {
    uint32_t answer;
    tco_state state;
} tco_made;

typedef struct {
    uint32_t answer;
    uint8_t code; /* 0 where the answer is TCO_BAD_CHECK */
} tco_code;

typedef struct {
    uint32_t source; /* TCO_SETTINGS or TCO_FLASH; TCO_NOWHERE where all is 0 */
    uint32_t start, length; /* in bytes */
} tco_part;

typedef struct {
    uint16_t length; /* 1 to 1536, with the check bytes */
    uint16_t vlan;   /* the tag */
    bool decision_match;
    uint8_t decision_index; /* 0 to 7; 0 without a match */
    bool vlan_match;
    uint8_t vlan_index; /* 0 to 7; 0 without a match */
} tco_status;

typedef struct {
    uint32_t answer;
    uint32_t field; /* the first bad one where the answer is TCO_BAD_STATUS, else TCO_FIELD_NONE */
    uint8_t block[TCO_STATUS_SIZE];
} tco_status_written;

typedef struct {
    uint32_t answer;
    uint32_t field; /* as above */
    tco_status fields;
} tco_status_read;

typedef struct {
    uint16_t response, reason; /* of NC-SI (DSP0222) */
    uint32_t in_force;
} tco_link;

/* A fresh state for fragments of at most `maximum` data bytes, 1 to 240, answered 0; else the one for
   240, answered 16. Whether packet error codes are checked stands in it from then on. The state is
   kept as it is and changed by tco_transact alone. */
tco_made tco_fresh_state(uint32_t maximum, bool check);

/* Writes fresh settings into the first 15 bytes and answers 0; answers 12 and writes nothing where
   there are fewer. The settings are kept as they are and changed by tco_transact alone. */
uint32_t tco_fresh_settings(uint8_t *settings, size_t settings_len);

/* Does one transaction: its bytes on the bus but for the count, which is the length of the data, and
   whether the link is up now. A transaction without data still needs a pointer that is not null.
   State, store and settings are changed where they lie, and go into the next call as they are;
   answered 12, 13 or 14, nothing changed.

   Answered 1, the first `sent` bytes of the store are to be sent before the next call: the packet,
   filled up with zeros to 60 bytes where it has fewer. With its four check bytes, which are not among
   them, the shortest one has 64, the least that 802.3 allows.

   Answered 17, which needs the check to be on, the command was not read: an open packet is broken,
   the transaction counts as one fragment in the row badcheck, and store and settings are as before.

   Answered 14, the account is full and stays so: print it and keep it as evidence, start anew with a
   fresh state and fresh settings, and do the transaction again. Nothing is open then, and the
   controller has to enable receiving again; settings that are kept across a fresh state are not those
   of the new transactions. */
tco_reply tco_transact(tco_state *state, uint8_t *store, size_t store_len, uint8_t *settings,
                       size_t settings_len, tco_transaction transaction, const uint8_t *bytes,
                       size_t bytes_len);

/* The packet error code of a transaction, answered 0: the CRC-8 with the polynomial x^8 + x^2 + x + 1,
   from 0 on, of address, command, count and data. Answered 17 where there are more than 255 bytes,
   which have none. */
tco_code tco_check_code(uint8_t address, uint8_t command, const uint8_t *bytes, size_t bytes_len);

/* How many bytes to show, from the store's first on, where `length` are asked for: that many, or 0
   where the store has fewer or they are more than 1536. */
size_t tco_shown(const uint8_t *store, size_t store_len, size_t length);

/* Where the 6 bytes of the MAC address in force lie, in the settings or in the Flash block; nowhere
   where the settings are not sound or either buffer is too short. */
tco_part tco_mac_in_force(const uint8_t *settings, size_t settings_len, const uint8_t *flash,
                          size_t flash_len);

/* Where the 4 bytes of the IPv4 address in force lie, as above. */
tco_part tco_ipv4_in_force(const uint8_t *settings, size_t settings_len, const uint8_t *flash,
                           size_t flash_len);

/* The status block for these fields, answered 0; eight zero bytes, answered 15 with the first bad
   field, where one is not allowed: the length, the decision index or the VLAN index. Each match of
   the fields is 0 or 1. */
tco_status_written tco_write_status(tco_status fields);

/* The fields of a status block, answered 0; all fields zero, answered 15 with the first bad field,
   where the bytes are no block that tco_write_status could have written. */
tco_status_read tco_read_status(const uint8_t *block, size_t block_len);

/* Judges a Set Link word over a medium, TCO_COPPER or TCO_FIBRE: response, reason, and the word in
   force from then on, which is handed to the next call; before the first it is 0. Any other medium is
   answered 0x0001/0x0002. A word that is not accepted leaves the one in force. Response and reason
   are numbers: that NC-SI sends each high byte first is the caller's to do. */
tco_link tco_set_link(uint32_t in_force, uint32_t word, bool host_present, uint32_t media);

/* Prints the account as lines of text at the start of `out` and gives how many bytes it wrote; 0,
   with nothing written, where they do not fit or the account is not sound. TCO_PRINTOUT_SIZE bytes
   are always enough. */
size_t tco_print_account(tco_account account, uint8_t *out, size_t out_len);

#ifdef __cplusplus
}
#endif

#endif
