/* Applies a SLURM file (RFC 8416) to two VRPs. Reads the file from the standard input. Prints the VRPs of the result,
 * or which item of the file is invalid. */
#include <pigyelund.h>
#include <stdio.h>
#include <stdlib.h>

/* Prints a VRP. Its text always fits, with the NUL after it. */
static void print_vrp(const pigy_vrp *vrp) {
  char text[PIGY_VRP_TEXT_MAX];
  size_t len;
  if (pigy_vrp_text(vrp, text, sizeof text, &len) == PIGY_OK) puts(text);
}

/* Prints why a SLURM file is not applied. The text of a status names the list of an invalid item, and `item` is the
 * number of the item in this list. An unknown member of the file has a number too. */
static void print_error(pigy_status status, size_t index, size_t item) {
  if (item != 0) {
    printf("%s, number %zu\n", pigy_status_text(status), item);
  } else if (PIGY_KIND(status) == PIGY_BAD_ARGUMENT) {
    printf("VRP at index %zu: %s\n", index, pigy_status_text(status));
  } else {
    puts(pigy_status_text(status));
  }
}

/* Applies a SLURM file to VRPs. */
static pigy_status apply(const uint8_t *file, size_t file_len, const pigy_vrp *vrps, size_t count) {
  size_t capacity = count + file_len / 16, len, index, item; /* this capacity always suffices */
  pigy_vrp *out = calloc(capacity + 1, sizeof *out);         /* not 0 octets, for which the result may be NULL */
  if (out == NULL) return PIGY_MEMORY;
  pigy_status status = pigy_slurm_apply(file, file_len, vrps, count, out, capacity, &len, &index, &item);
  if (status != PIGY_OK) {
    print_error(status, index, item);
  } else {
    for (size_t i = 0; i < len; i++) print_vrp(&out[i]);
  }
  free(out);
  return status;
}

int main(void) {
  /* 10.0.0.0/8-16 and 192.0.2.0/24-24 of AS64496 */
  static const pigy_vrp vrps[] = {
    {.address = {10}, .asn = 64496, .family = PIGY_IPV4, .len = 8, .max_len = 16},
    {.address = {192, 0, 2}, .asn = 64496, .family = PIGY_IPV4, .len = 24, .max_len = 24},
  };
  static uint8_t file[65536];
  size_t len = fread(file, 1, sizeof file, stdin);
  if (ferror(stdin) || len == sizeof file) {
    fputs("the file is not read, or is too large\n", stderr);
    return 1;
  }
  return apply(file, len, vrps, 2) != PIGY_OK;
}
