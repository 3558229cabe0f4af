/* What the wrong callers of this folder share. A caller that is not refused prints "accepted", and its status is 0. */
#include <pigyelund.h>
#include <stdio.h>

/* IP address blocks: 10.0.0.0/8, of the issuer; 10.0.0.0/8 and 12.0.0.0/8, which a certificate claims; no DER. */
static const uint8_t ten[] = {0x30, 12, 0x30, 10, 4, 2, 0, 1, 0x30, 4, 3, 2, 0, 10};
static const uint8_t both[] = {0x30, 16, 0x30, 14, 4, 2, 0, 1, 0x30, 8, 3, 2, 0, 10, 3, 2, 0, 12};
static const uint8_t malformed[] = {0x31, 0};
static const pigy_set issuer = {0, 0, ten, sizeof ten}, claim = {0, 0, both, sizeof both};
static const pigy_set invalid = {0, 0, malformed, sizeof malformed};

/* Accepts if a condition holds, and otherwise prints the text of a status. */
static inline int accept_if(int is_so, pigy_status status) {
  puts(is_so ? "accepted" : pigy_status_text(status));
  (void)issuer, (void)claim, (void)invalid;
  return !is_so;
}

/* Verifies the claim of a certificate, and accepts it if the status is PIGY_OK. */
static inline int verify(pigy_set cert, pigy_present present, pigy_encoding encoding, pigy_mode mode) {
  uint8_t verified[256], over[256];
  pigy_buffers out = {0, 0, 0, verified, sizeof verified, 0}, excess = {0, 0, 0, over, sizeof over, 0};
  pigy_status status = pigy_verify(issuer, cert, present, encoding, mode, &out, &excess);
  return accept_if(status == PIGY_OK, status);
}
