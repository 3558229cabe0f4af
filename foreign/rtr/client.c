/* client HOST PORT: keeps a table of the VRPs of an RTR cache (RFC 8210). rtrlib talks to the cache.
 *
 * A thread of rtrlib calls `note` for each VRP that the cache announces or withdraws, and for each that expires. When a
 * response is complete, the main thread makes the next table from these reports. It prints a line for each announced
 * (+) or withdrawn (-) VRP, and the number of VRPs in the table. The program runs until it is ended. */
#define _DEFAULT_SOURCE
#include <fcntl.h>
#include <pigyelund.h>
#include <pthread.h>
#include <rtrlib/rtrlib.h>
#include <stdio.h>
#include <stdlib.h>
#include <string.h>
#include <unistd.h>

typedef struct {
  pigy_vrp vrp;
  size_t number; /* the index of the report */
  bool is_added;
} report;

static report *reports;
static size_t count, capacity;
static pthread_mutex_t lock = PTHREAD_MUTEX_INITIALIZER; /* for all three */

static void stop(const char *text) {
  fprintf(stderr, "client: %s\n", text);
  exit(1);
}

static void put_u32(uint8_t *at, uint32_t number) {
  for (int i = 0; i < 4; i++) at[i] = (uint8_t)(number >> (24 - 8 * i));
}

static void note(struct pfx_table *of_rtrlib, const struct pfx_record record, const bool is_added) {
  (void)of_rtrlib;
  report one = {.vrp = {.asn = record.asn, .len = record.min_len, .max_len = record.max_len}, .is_added = is_added};
  one.vrp.family = record.prefix.ver == LRTR_IPV4 ? PIGY_IPV4 : PIGY_IPV6;
  if (one.vrp.family == PIGY_IPV4)
    put_u32(one.vrp.address, record.prefix.u.addr4.addr);
  else
    for (int i = 0; i < 4; i++) put_u32(one.vrp.address + 4 * i, record.prefix.u.addr6.addr[i]);
  pthread_mutex_lock(&lock);
  if (count == capacity) {
    capacity = capacity ? 2 * capacity : 1024;
    if (!(reports = realloc(reports, capacity * sizeof *reports))) stop("out of memory");
  }
  one.number = count;
  reports[count++] = one;
  pthread_mutex_unlock(&lock);
}

static int order_of_vrps(const pigy_vrp *one, const pigy_vrp *other) {
  const uint8_t first[] = {one->family, one->len, one->max_len}, second[] = {other->family, other->len, other->max_len};
  int order = memcmp(first, second, sizeof first);
  if (!order) order = memcmp(one->address, other->address, sizeof one->address);
  return order ? order : (one->asn > other->asn) - (one->asn < other->asn);
}

static int order_of_reports(const void *left, const void *right) {
  const report *one = left, *other = right;
  int order = order_of_vrps(&one->vrp, &other->vrp);
  return order ? order : (one->number > other->number) - (one->number < other->number);
}

static void print(char sign, const pigy_vrp *vrp) {
  char text[PIGY_VRP_TEXT_MAX];
  size_t len;
  pigy_status status = pigy_vrp_text(vrp, text, sizeof text, &len);
  if (status != PIGY_OK) stop(pigy_status_text(status));
  printf("%c %s\n", sign, text);
}

/* Returns the next table, and frees the old one. A VRP that was added and removed between two tables is in no list. */
static pigy_table *next_of(pigy_table *table) {
  pigy_vrp *announced = malloc(count * sizeof *announced), *withdrawn = malloc(count * sizeof *withdrawn);
  size_t added = 0, removed = 0, len, index;
  if (!announced || !withdrawn) stop("out of memory");
  qsort(reports, count, sizeof *reports, order_of_reports);
  for (size_t first = 0, end; first < count; first = end) {
    for (end = first + 1; end < count && !order_of_vrps(&reports[first].vrp, &reports[end].vrp);) end++;
    if (reports[first].is_added != reports[end - 1].is_added) continue;
    print(reports[first].is_added ? '+' : '-', &reports[first].vrp);
    if (reports[first].is_added)
      announced[added++] = reports[first].vrp;
    else
      withdrawn[removed++] = reports[first].vrp;
  }
  count = 0;
  pigy_table *next;
  pigy_status status = pigy_table_with_changes(table, announced, added, withdrawn, removed, &next, &index);
  if (status != PIGY_OK) stop(pigy_status_text(status));
  pigy_table_len(next, &len); /* fails only for NULL */
  printf("%zu VRPs\n", len);
  if (fflush(stdout) || ferror(stdout)) stop("cannot write");
  pigy_table_free(table);
  free(announced);
  free(withdrawn);
  return next;
}

int main(int words, char **word) {
  for (int stream = 0; stream < 3; stream++) /* the socket would take its number */
    if (fcntl(stream, F_GETFD) < 0) stop("a standard stream is closed");
  if (words != 3) stop("usage: client HOST PORT");
  struct tr_tcp_config address = {.host = word[1], .port = word[2]};
  struct tr_socket transport;
  struct rtr_socket cache = {.tr_socket = &transport}, *caches[] = {&cache};
  struct rtr_mgr_group group = {.sockets = caches, .sockets_len = 1, .preference = 1};
  struct rtr_mgr_config *manager;
  pigy_table *table;
  size_t index;
  if (pigy_table_new(NULL, 0, &table, &index) != PIGY_OK) stop("out of memory");
  if (tr_tcp_init(&address, &transport) != TR_SUCCESS) stop("no socket");
  if (rtr_mgr_init(&manager, &group, 1, 3600, 7200, 5, note, NULL, NULL, NULL) != RTR_SUCCESS) stop("no manager");
  rtr_set_interval_mode(&cache, RTR_INTERVAL_MODE_ACCEPT_ANY);
  if (rtr_mgr_start(manager) != RTR_SUCCESS) stop("no thread");
  for (;; usleep(100000)) {
    pthread_mutex_lock(&lock);
    /* While it is RTR_SYNC, rtrlib can report more changes of the same response. */
    if (count && cache.state != RTR_SYNC) table = next_of(table);
    pthread_mutex_unlock(&lock);
  }
}
