/* refused at run: unknown encoding */
#include "certificates.h"

int main(void) {
  /* 1 in place of "strict" and of "trim". */
  return verify(claim, PIGY_HAS_IP, 1, 1);
}
