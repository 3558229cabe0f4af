/* refused at run: no handle */
#include "certificates.h"

int main(void) {
  /* The handle of the verified resources is used although the certificate was refused. */
  pigy_resources *set, *verified, *excess;
  uint8_t answer;
  pigy_status status = pigy_resources_read(issuer, PIGY_STRICT, &set);
  if (status != PIGY_OK) return 1;
  status = pigy_resources_verify(set, claim, PIGY_HAS_IP, PIGY_STRICT, PIGY_REFUSE, &verified, &excess);
  if (status == PIGY_OK) return accept_if(1, status);
  status = pigy_resources_contains(verified, excess, &answer);
  pigy_resources_free(set);
  pigy_resources_free(excess);
  return accept_if(answer, status);
}
