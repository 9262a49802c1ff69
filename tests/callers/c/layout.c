/*
 * Where the fields of each struct lie: the same numbers as in ../second/interface.rs. Then every
 * number that the header names.
 */
#include "tco.h"

#define SIZE(type, size, align)                                                                    \
    _Static_assert(sizeof(type) == (size) && _Alignof(type) == (align), #type)
#define AT(type, field, offset) _Static_assert(offsetof(type, field) == (offset), #type "." #field)

SIZE(tco_account, 280, 8);
AT(tco_account, grid, 0);
AT(tco_account, open_fragments, 240);
AT(tco_account, open_bytes, 248);
AT(tco_account, taken, 256);
AT(tco_account, refused, 264);
AT(tco_account, total, 272);

SIZE(tco_state, 296, 8);
AT(tco_state, account, 0);
AT(tco_state, maximum, 280);
AT(tco_state, check, 288);

SIZE(tco_transaction, 4, 1);
AT(tco_transaction, address, 0);
AT(tco_transaction, command, 1);
AT(tco_transaction, code, 2);
AT(tco_transaction, link_up, 3);

SIZE(tco_reply, 8, 4);
AT(tco_reply, answer, 0);
AT(tco_reply, sent, 4);

SIZE(tco_made, 304, 8);
AT(tco_made, answer, 0);
AT(tco_made, state, 8);

SIZE(tco_code, 8, 4);
AT(tco_code, answer, 0);
AT(tco_code, code, 4);

SIZE(tco_part, 12, 4);
AT(tco_part, source, 0);
AT(tco_part, start, 4);
AT(tco_part, length, 8);

SIZE(tco_status, 8, 2);
AT(tco_status, length, 0);
AT(tco_status, vlan, 2);
AT(tco_status, decision_match, 4);
AT(tco_status, decision_index, 5);
AT(tco_status, vlan_match, 6);
AT(tco_status, vlan_index, 7);

SIZE(tco_status_written, 16, 4);
AT(tco_status_written, answer, 0);
AT(tco_status_written, field, 4);
AT(tco_status_written, block, 8);

SIZE(tco_status_read, 16, 4);
AT(tco_status_read, answer, 0);
AT(tco_status_read, field, 4);
AT(tco_status_read, fields, 8);

SIZE(tco_link, 8, 4);
AT(tco_link, response, 0);
AT(tco_link, reason, 2);
AT(tco_link, in_force, 4);

#define IS(name, number) _Static_assert((name) == (number), #name)

IS(TCO_COMMAND_FIRST, 0x84);
IS(TCO_COMMAND_MIDDLE, 0x04);
IS(TCO_COMMAND_LAST, 0x44);
IS(TCO_COMMAND_WHOLE, 0xC4);
IS(TCO_COMMAND_RECEIVE_ENABLE, 0xCA);

IS(TCO_DONE, 0);
IS(TCO_JOINED, 0);
IS(TCO_SENT, 1);
IS(TCO_ABORTED, 2);
IS(TCO_BAD_LENGTH, 3);
IS(TCO_OVER, 4);
IS(TCO_SHORT, 5);
IS(TCO_LINK_DOWN, 6);
IS(TCO_UNKNOWN, 7);
IS(TCO_ENABLE_LENGTH, 8);
IS(TCO_ENABLE_CONTROL, 9);
IS(TCO_ENABLE_NO_MAC, 10);
IS(TCO_ENABLED, 11);
IS(TCO_NO_ROOM, 12);
IS(TCO_NOT_SOUND, 13);
IS(TCO_FULL, 14);
IS(TCO_BAD_STATUS, 15);
IS(TCO_BAD_MAXIMUM, 16);
IS(TCO_BAD_CHECK, 17);

IS(TCO_ROW_SENT, 0);
IS(TCO_ROW_SUPERSEDED, 1);
IS(TCO_ROW_FLUSHED, 2);
IS(TCO_ROW_BROKEN, 3);
IS(TCO_ROW_OVER, 4);
IS(TCO_ROW_SHORT, 5);
IS(TCO_ROW_LINK_DOWN, 6);
IS(TCO_ROW_ABORTED, 7);
IS(TCO_ROW_BAD_LENGTH, 8);
IS(TCO_ROW_BAD_CHECK, 9);
IS(TCO_ROWS, 10);
IS(TCO_COLUMNS, 3);

IS(TCO_MAXIMUM, 240);
IS(TCO_STORE_SIZE, 1536);
IS(TCO_SETTINGS_SIZE, 15);
IS(TCO_FLASH_SIZE, 10);
IS(TCO_STATUS_SIZE, 8);
IS(TCO_PRINTOUT_SIZE, 920);

IS(TCO_FIELD_NONE, 0);
IS(TCO_FIELD_BLOCK_SIZE, 1);
IS(TCO_FIELD_LENGTH, 2);
IS(TCO_FIELD_PACKET_STATUS, 3);
IS(TCO_FIELD_MNG_RESERVED, 4);
IS(TCO_FIELD_DECISION_INDEX, 5);
IS(TCO_FIELD_VLAN_INDEX, 6);

IS(TCO_LIMIT, 4294967295);

IS(TCO_NOWHERE, 0);
IS(TCO_SETTINGS, 1);
IS(TCO_FLASH, 2);

IS(TCO_COPPER, 0);
IS(TCO_FIBRE, 1);
