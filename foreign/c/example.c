/* Verifies the IP address blocks of a certificate against those of its issuer, in both modes.
 *
 * It prints a line for each mode: the status, and the octets of the overclaimed or of the verified resources. docs/C.md
 * says how to build it. */
#include <pigyelund.h>
#include <stdio.h>

int main(void) {
  /* The issuer has 10.0.0.0/8. The certificate claims 10.0.0.0/8 and 12.0.0.0/8. */
  static const uint8_t issuer[] = {0x30, 0x0c, 0x30, 0x0a, 4, 2, 0, 1, 0x30, 4, 3, 2, 0, 10};
  static const uint8_t claim[] = {0x30, 0x10, 0x30, 0x0e, 4, 2, 0, 1, 0x30, 8, 3, 2, 0, 10, 3, 2, 0, 12};
  pigy_set by = {0, 0, issuer, sizeof issuer}, cert = {0, 0, claim, sizeof claim};
  for (pigy_mode mode = PIGY_REFUSE; mode <= PIGY_TRIM; mode++) {
    uint8_t verified[160], over[160]; /* three times the octets of both sets, and 64 more */
    pigy_buffers out = {0, 0, 0, verified, sizeof verified, 0}, excess = {0, 0, 0, over, sizeof over, 0};
    pigy_status status = pigy_verify(by, cert, PIGY_HAS_IP, PIGY_STRICT, mode, &out, &excess);
    const pigy_buffers *found = status == PIGY_OK ? &out : &excess;
    printf("%s: %s:", mode == PIGY_REFUSE ? "refuse" : "trim", pigy_status_text(status));
    for (size_t i = 0; i < found->ip_len; i++) printf(" %02x", found->ip[i]);
    puts("");
  }
  return 0;
}
