/* refused at run: file of VRPs: not a JSON object */
#include "certificates.h"

int main(void) {
  /* A bit of a status is taken for its kind: a bad line is skipped, and an invalid file is refused. */
  static const uint8_t file[] = {'{'};
  pigy_vrp vrp;
  size_t len, line;
  pigy_status status = pigy_vrps_read(file, sizeof file, &vrp, 1, &len, &line);
  return accept_if((status & PIGY_BAD_LINE) != 0 || (status & PIGY_BAD_ITEM) != 0, status);
}
