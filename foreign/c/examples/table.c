/* Reads a validator's file of VRPs from the standard input, and makes a table. Prints why a route is invalid, makes the
 * next table, and compares the validity of the route by both tables. Prints the VRPs in which the tables differ. */
#include <pigyelund.h>
#include <stdio.h>
#include <stdlib.h>

/* Ends the program if a call fails. Prints the index that the call stored, if the call has one. After PIGY_MEMORY no
 * element is at fault. */
static void check(pigy_status status, const size_t *index) {
  if (status == PIGY_OK) return;
  if (index && status != PIGY_MEMORY) fprintf(stderr, "at index %zu: ", *index);
  fprintf(stderr, "%s\n", pigy_status_text(status));
  exit(1);
}

/* Resizes an array to count elements of a size. The array may be NULL. Ends the program if memory runs out. */
static void *resize(void *block, size_t count, size_t size) {
  block = count < SIZE_MAX / size ? realloc(block, count * size) : 0;
  check(block ? PIGY_OK : PIGY_MEMORY, 0);
  return block;
}

/* Returns the octets of a file, and their number. */
static uint8_t *read_octets(FILE *file, size_t *len) {
  size_t capacity = 64, count;
  uint8_t *octets = resize(0, capacity, 1);
  for (*len = 0; (count = fread(octets + *len, 1, capacity - *len, file)) > 0;)
    if ((*len += count) == capacity) octets = resize(octets, capacity *= 2, 1);
  return octets;
}

/* Returns the VRPs of a validator's file, and their number. Ends the program if the file is invalid. */
static pigy_vrp *read_vrps(FILE *file, size_t *count) {
  size_t len, line;
  uint8_t *octets = read_octets(file, &len);
  size_t capacity = len / 8 + 1; /* no VRP has fewer than 8 octets, so the file is read only once */
  pigy_vrp *vrps = resize(0, capacity, sizeof *vrps);
  pigy_status status = pigy_vrps_read(octets, len, vrps, capacity, count, &line);
  free(octets);
  if (line) fprintf(stderr, "at line or item %zu: ", line);
  check(status, 0);
  return vrps;
}

static void print_vrp(const pigy_vrp *vrp) {
  char text[PIGY_VRP_TEXT_MAX];
  size_t len;
  check(pigy_vrp_text(vrp, text, sizeof text, &len), 0);
  printf("%s", text);
}

/* Prints the VRPs that cover a route. Enlarges the buffer if it is too small. */
static void print_covering(const pigy_table *table, const pigy_route *route) {
  size_t capacity = 1, len;
  pigy_covering *why = resize(0, capacity, sizeof *why);
  pigy_status status;
  while ((status = pigy_table_covering(table, route, why, capacity, &len)) == PIGY_TOO_SMALL)
    why = resize(why, capacity = len, sizeof *why);
  check(status, 0);
  for (size_t i = 0; i < len; i++) {
    print_vrp(&why[i].vrp);
    printf("%s%s\n", why[i].mismatch & PIGY_OTHER_AS ? ", another AS" : "",
           why[i].mismatch & PIGY_TOO_LONG ? ", too long" : "");
  }
  free(why);
}

static void print_lines(char sign, const pigy_vrp *vrps, size_t count) {
  for (size_t i = 0; i < count; i++) {
    printf("%c ", sign);
    print_vrp(&vrps[i]);
    puts("");
  }
}

/* Prints the VRPs in which two tables differ. Each buffer has space for a whole table, so one call suffices. */
static void print_changes(const pigy_table *old, const pigy_table *next) {
  size_t announced_len = 0, withdrawn_len = 0;
  check(pigy_table_len(next, &announced_len), 0);
  check(pigy_table_len(old, &withdrawn_len), 0);
  pigy_vrp *announced = resize(0, announced_len, sizeof *announced);
  pigy_vrp *withdrawn = resize(0, withdrawn_len, sizeof *withdrawn);
  check(pigy_table_changes(old, next, announced, announced_len, &announced_len, withdrawn, withdrawn_len,
                           &withdrawn_len), 0);
  print_lines('+', announced, announced_len);
  print_lines('-', withdrawn, withdrawn_len);
  free(announced);
  free(withdrawn);
}

int main(void) {
  /* 10.1.2.0/24 from AS64497; a VRP of 10.1.0.0/16 with maximum length 24 and AS64497 */
  static const pigy_route route = {.address = {10, 1, 2}, .asn = 64497, .family = PIGY_IPV4, .len = 24};
  const pigy_vrp fresh = {.address = {10, 1}, .asn = 64497, .family = PIGY_IPV4, .len = 16, .max_len = 24};
  pigy_table *table, *next;
  uint8_t validity, reason, differs = 0;
  size_t count, index, len;
  pigy_vrp *vrps = read_vrps(stdin, &count);
  if (ferror(stdin)) {
    fputs("the file is not read\n", stderr);
    return 1;
  }
  /* the first table: the route is invalid */
  check(pigy_table_new(vrps, count, &table, &index), &index);
  check(pigy_table_validate(table, &route, &validity, &reason), 0);
  if (validity != PIGY_INVALID) puts("otherwise");
  else puts(reason == PIGY_INVALID_AS ? "invalid: another AS" : "invalid: too long");
  print_covering(table, &route);
  /* the next table, with the new VRP and without the first: the route is valid */
  check(pigy_table_with_changes(table, &fresh, 1, vrps, 1, &next, &index), &index);
  free(vrps);
  check(pigy_table_validate(next, &route, &validity, &reason), 0);
  puts(validity == PIGY_VALID ? "valid" : "otherwise");
  /* the validity of the route differs between the tables */
  check(pigy_table_revalidate(table, next, &route, 1, &differs, 1, &len, &index), &index);
  puts(differs ? "differs" : "stays");
  print_changes(table, next);
  pigy_table_free(table);
  pigy_table_free(next);
  return 0;
}
