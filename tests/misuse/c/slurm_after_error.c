/* refused at run: SLURM file: not a JSON object */
#include "certificates.h"

int main(void) {
  /* The VRPs are used although the SLURM file is invalid: it was cut off. */
  static const uint8_t file[] = "{\"slurmVersion\": 1";
  static const pigy_vrp vrp = {{10}, 64496, PIGY_IPV4, 8, 8};
  pigy_vrp out[2];
  size_t len = 1, index, item;
  pigy_status status = pigy_slurm_apply(file, sizeof file - 1, &vrp, 1, out, 2, &len, &index, &item);
  return accept_if(len > 0, status);
}
