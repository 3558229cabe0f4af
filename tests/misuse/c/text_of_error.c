/* refused at run: invalid line of respath */
#include "certificates.h"

int main(void) {
  /* Whether the text is that of an error is not looked at. */
  static const char line[] = "norm v4 10.0.0.1/33";
  char text[64];
  size_t len;
  pigy_status status = pigy_answer(line, sizeof line - 1, text, sizeof text, &len);
  return accept_if(status == PIGY_OK, status);
}
