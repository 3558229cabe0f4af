/* Makes two sets from lists of IPv4 blocks. Prints whether the first has all addresses of the second, whether it has a
 * prefix, and its text. */
#include <pigyelund.h>
#include <stdio.h>
#include <string.h>

/* Makes the set of a list of IPv4 blocks. */
static pigy_status make_set(const char *text, pigy_resources **set) {
  return pigy_resources_from_text(text, strlen(text), PIGY_IPV4, set);
}

/* Asks two questions, and writes the text of a set. Returns the first status that is not PIGY_OK. */
static pigy_status ask(const pigy_resources *held, const pigy_resources *claimed) {
  static const pigy_prefix prefix = {.address = {198, 51, 100}, .family = PIGY_IPV4, .len = 24};
  uint8_t answer;
  char text[256];
  size_t len;
  pigy_status status = pigy_resources_contains(held, claimed, &answer);
  if (status != PIGY_OK) return status;
  puts(answer ? "contains the set" : "does not contain the set");
  status = pigy_resources_contains_prefix(held, &prefix, &answer);
  if (status != PIGY_OK) return status;
  puts(answer ? "contains the prefix" : "does not contain the prefix");
  status = pigy_resources_text(held, PIGY_IPV4, text, sizeof text, &len);
  if (status == PIGY_OK && len < sizeof text) puts(text); /* a NUL follows if there is an octet for it */
  return status;
}

int main(void) {
  pigy_resources *held = NULL, *claimed = NULL;
  pigy_status status = make_set("192.0.2.0/25, 192.0.2.128-192.0.2.255, 198.51.100.7", &held);
  if (status == PIGY_OK) status = make_set("192.0.2.64/26", &claimed);
  if (status == PIGY_OK) status = ask(held, claimed);
  if (status != PIGY_OK) fprintf(stderr, "%s\n", pigy_status_text(status));
  pigy_resources_free(claimed);
  pigy_resources_free(held);
  return status != PIGY_OK;
}
