/* refused at compile: will always evaluate */
#include "certificates.h"

int main(void) {
  if (pigy_contains) return accept_if(1, PIGY_OK);
  return 1;
}
