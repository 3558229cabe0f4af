/* The texts of the statuses, for both libraries. This code is tested, and is not proved.
 *
 * The Makefile makes texts.h from texts.txt: a case for each status, which returns its text. */
#include "../pigyelund.h"

const char *pigy_status_text(pigy_status status) {
  switch (status) {
#include "texts.h"
    default: return "unknown status";
  }
}
