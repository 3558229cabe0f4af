/* refused at compile: nonnull */
#include "certificates.h"

int main(void) {
  static const uint8_t file[] = "{\"slurmVersion\": 1}";
  pigy_vrp vrp;
  size_t len, index;
  return accept_if(pigy_slurm_apply(file, sizeof file - 1, 0, 0, &vrp, 1, &len, &index, 0) == PIGY_OK, PIGY_OK);
}
