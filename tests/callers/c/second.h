/* The second program behind the same interface: ../second/exported.rs. */
#ifndef SECOND_H
#define SECOND_H

#include "tco.h"

tco_made second_fresh_state(uint32_t maximum, bool check);
uint32_t second_fresh_settings(uint8_t *settings, size_t settings_len);
tco_reply second_transact(tco_state *state, uint8_t *store, size_t store_len, uint8_t *settings,
                          size_t settings_len, tco_transaction transaction, const uint8_t *bytes,
                          size_t bytes_len);
tco_code second_check_code(uint8_t address, uint8_t command, const uint8_t *bytes,
                           size_t bytes_len);
size_t second_shown(const uint8_t *store, size_t store_len, size_t length);
tco_part second_mac_in_force(const uint8_t *settings, size_t settings_len, const uint8_t *flash,
                             size_t flash_len);
tco_part second_ipv4_in_force(const uint8_t *settings, size_t settings_len, const uint8_t *flash,
                              size_t flash_len);
tco_status_written second_write_status(tco_status fields);
tco_status_read second_read_status(const uint8_t *block, size_t block_len);
tco_link second_set_link(uint32_t in_force, uint32_t word, bool host_present, uint32_t media);
size_t second_print_account(tco_account account, uint8_t *out, size_t out_len);

#endif
