/* refused at run: unknown family */
#include "certificates.h"

int main(void) {
  /* The number of an extension is taken for a family. */
  pigy_prefix prefix;
  size_t len;
  pigy_status status = pigy_prefixes(ten, sizeof ten, PIGY_STRICT, PIGY_HAS_IP, &prefix, 1, &len);
  return accept_if(status == PIGY_OK, status);
}
