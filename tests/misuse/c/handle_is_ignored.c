/* refused at compile: unused-result */
#include "certificates.h"

int main(void) {
  pigy_resources *set = 0, *excess = 0;
  pigy_resources_verify(0, claim, PIGY_HAS_IP, PIGY_STRICT, PIGY_REFUSE, &set, &excess);
  return accept_if(set == 0, PIGY_OK);
}
