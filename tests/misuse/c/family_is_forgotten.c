/* refused at run: unknown family */
#include "certificates.h"

int main(void) {
  /* The members of the prefix are 0. */
  pigy_resources *set;
  pigy_prefix prefix = {{0}, 0, 0};
  uint8_t answer = 1;
  if (pigy_resources_read(issuer, PIGY_STRICT, &set) != PIGY_OK) return 1;
  pigy_status status = pigy_resources_contains_prefix(set, &prefix, &answer);
  pigy_resources_free(set);
  return accept_if(answer, status);
}
