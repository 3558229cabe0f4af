/* refused at compile: int-conversion */
#include "certificates.h"

int main(void) {
  /* The kind is before the text. */
  pigy_buffers out = {0, 0, 0, 0, 0, 0};
  return accept_if(pigy_set_from_text(PIGY_IPV4, "10.0.0.0/8", 10, &out) == PIGY_OK, PIGY_OK);
}
