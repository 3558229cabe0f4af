/* calls CALL COUNT FILE LENGTH LENGTH LENGTH: makes a call on two sets COUNT times.
 *
 * CALL is `verify`, `path`, `union`, `intersection`, `difference`, `contains` or `held`. FILE has four DER values: the
 * AS identifiers and the IP address blocks of the issuer or first set, then those of the certificate or second set. The
 * path of `path` has STEPS certificates with the values of the second set, which refuse and trim in turn. For `held`
 * the issuer's set is a handle that is read once, and each call verifies the certificate from its DER. Each LENGTH is
 * the number of octets of one of the first three values. The program prints the number of octets that all calls
 * together write. For `contains` and `held` it prints how often the result was true, or the certificate verified. */
#include "../foreign/pigyelund.h"
#include <stdio.h>
#include <stdlib.h>
#include <string.h>

enum { STEPS = 10 };

typedef struct {
  uint8_t *octets;
  size_t length;
} run;

static run read_file(const char *path) {
  FILE *file = fopen(path, "rb");
  run found = {0, 0};
  if (!file || fseek(file, 0, SEEK_END)) exit(2);
  found.length = (size_t)ftell(file);
  rewind(file);
  found.octets = malloc(found.length + 1);
  if (!found.octets || fread(found.octets, 1, found.length, file) != found.length) exit(2);
  fclose(file);
  return found;
}

static pigy_status combine(const char *call, pigy_set one, pigy_set other, pigy_buffers *out) {
  if (!strcmp(call, "union")) return pigy_union(one, other, PIGY_LENIENT, out);
  if (!strcmp(call, "intersection")) return pigy_intersection(one, other, PIGY_LENIENT, out);
  if (!strcmp(call, "difference")) return pigy_difference(one, other, PIGY_LENIENT, out);
  exit(2);
}

static pigy_status verify_path(pigy_set one, pigy_set other, pigy_buffers *out, pigy_buffers *excess) {
  pigy_certificate path[STEPS];
  size_t verified;
  /* The values of the second set lie side by side in the file. */
  for (int i = 0; i < STEPS; i++)
    path[i] = (pigy_certificate){0, other.as_len, other.as_len, other.ip_len, PIGY_HAS_BOTH,
                                 i % 2 ? PIGY_TRIM : PIGY_REFUSE};
  return pigy_verify_path(one, other.as, other.as_len + other.ip_len, path, STEPS, PIGY_LENIENT, out, excess,
                          &verified);
}

/* Verifies a certificate against a held issuer, and frees the result. Returns 1. */
static size_t verify_held(const pigy_resources *issuer, pigy_set cert) {
  pigy_resources *verified, *excess;
  if (pigy_resources_verify(issuer, cert, PIGY_HAS_BOTH, PIGY_LENIENT, PIGY_REFUSE, &verified, &excess) != PIGY_OK)
    exit(3);
  pigy_resources_free(verified);
  return 1;
}

/* Returns the number of octets that one call writes, or 1 if the result of its test is true. */
static size_t octets_of_call(const char *call, pigy_set one, pigy_set other, pigy_buffers *out) {
  pigy_buffers excess = {0, 0, 0, 0, 0, 0};
  pigy_status status;
  uint8_t answer = 0;
  if (!strcmp(call, "contains")) status = pigy_contains(one, other, PIGY_LENIENT, &answer);
  else if (!strcmp(call, "verify"))
    status = pigy_verify(one, other, PIGY_HAS_BOTH, PIGY_LENIENT, PIGY_TRIM, out, &excess);
  else if (!strcmp(call, "path")) status = verify_path(one, other, out, &excess);
  else status = combine(call, one, other, out);
  if (status != PIGY_OK) exit(3);
  return !strcmp(call, "contains") ? answer : out->as_len + out->ip_len;
}

int main(int count, char **words) {
  run in[4];
  size_t octets = 0;
  if (count != 7) return 2;
  run left = read_file(words[3]);
  for (int i = 0; i < 4; i++) {
    size_t length = i < 3 ? (size_t)strtol(words[4 + i], 0, 10) : left.length;
    if (left.length < length) return 2;
    in[i] = (run){left.octets, length};
    left = (run){left.octets + length, left.length - length};
  }
  pigy_set one = {in[0].octets, in[0].length, in[1].octets, in[1].length};
  pigy_set other = {in[2].octets, in[2].length, in[3].octets, in[3].length};
  pigy_buffers out = {0, in[0].length + in[2].length, 0, 0, in[1].length + in[3].length, 0};
  out.as = malloc(out.as_capacity + 1);
  out.ip = malloc(out.ip_capacity + 1);
  if (!out.as || !out.ip) return 2;
  int is_held = !strcmp(words[1], "held");
  pigy_resources *issuer = 0;
  if (is_held && pigy_resources_read(one, PIGY_LENIENT, &issuer) != PIGY_OK) return 3;
  for (long times = strtol(words[2], 0, 10); times > 0; times--)
    octets += is_held ? verify_held(issuer, other) : octets_of_call(words[1], one, other, &out);
  pigy_resources_free(issuer);
  printf("%zu\n", octets);
  return 0;
}
