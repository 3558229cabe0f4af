/* refused at run: unknown encoding */
#include "certificates.h"

int main(void) {
  /* The family and the encoding are exchanged. */
  pigy_prefix prefix;
  size_t len;
  pigy_status status = pigy_prefixes(ten, sizeof ten, PIGY_IPV4, PIGY_STRICT, &prefix, 1, &len);
  return accept_if(status == PIGY_OK, status);
}
