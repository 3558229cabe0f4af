/* refused at run: unknown encoding */
#include "certificates.h"

int main(void) {
  /* The encoding and the mode are exchanged. */
  return verify(claim, PIGY_HAS_IP, PIGY_REFUSE, PIGY_STRICT);
}
