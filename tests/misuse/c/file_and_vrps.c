/* refused at compile: incompatible-pointer-types */
#include "certificates.h"

int main(void) {
  /* The VRPs are passed in place of the SLURM file. */
  static const uint8_t file[] = "{}";
  static const pigy_vrp vrp = {{10}, 64496, PIGY_IPV4, 8, 8};
  pigy_vrp out;
  size_t len, index, item;
  return accept_if(pigy_slurm_apply(&vrp, 1, file, sizeof file - 1, &out, 1, &len, &index, &item) == PIGY_OK, PIGY_OK);
}
