/* rtrlib_origins VRPS ROUTES ANSWERS: validates routes by a table of rtrlib.
 *
 * A line of VRPS is `ADDRESS LENGTH MAX ASN`, and a line of ROUTES is `ADDRESS LENGTH ASN`. The program reads both
 * files first. It writes one line for each route to ANSWERS: `valid`, `invalid` or `not-found`. It prints two times in
 * seconds of the processor: the first is that of adding the VRPs, the second that of the lookups. */
#include <rtrlib/rtrlib.h>
#include <stdio.h>
#include <stdlib.h>
#include <string.h>
#include <time.h>

struct route {
    struct lrtr_ip_addr address;
    unsigned length, asn;
};

static double now(void) {
    struct timespec at;
    clock_gettime(CLOCK_PROCESS_CPUTIME_ID, &at);
    return at.tv_sec + at.tv_nsec / 1e9;
}

static void *more(void *from, size_t count, size_t size) {
    if (count & (count - 1))
        return from;
    from = realloc(from, (count ? 2 * count : 1) * size);
    if (!from)
        exit(1);
    return from;
}

int main(int count, char **words) {
    static const char *names[] = {"valid", "not-found", "invalid"};
    char text[64];
    unsigned length, max, asn;
    if (count != 4)
        return 2;

    struct pfx_record *vrps = NULL;
    size_t vrp_count = 0;
    FILE *file = fopen(words[1], "r");
    if (!file)
        return 1;
    while (fscanf(file, "%63s %u %u %u", text, &length, &max, &asn) == 4) {
        vrps = more(vrps, vrp_count, sizeof *vrps);
        struct pfx_record *record = &vrps[vrp_count++];
        memset(record, 0, sizeof *record);
        if (lrtr_ip_str_to_addr(text, &record->prefix))
            return 1;
        record->min_len = length;
        record->max_len = max;
        record->asn = asn;
    }
    fclose(file);

    struct route *routes = NULL;
    size_t route_count = 0;
    if (!(file = fopen(words[2], "r")))
        return 1;
    while (fscanf(file, "%63s %u %u", text, &length, &asn) == 3) {
        routes = more(routes, route_count, sizeof *routes);
        struct route *route = &routes[route_count++];
        if (lrtr_ip_str_to_addr(text, &route->address))
            return 1;
        route->length = length;
        route->asn = asn;
    }
    fclose(file);
    unsigned char *states = malloc(route_count + 1);
    if (!states)
        return 1;

    struct pfx_table table;
    double began = now();
    pfx_table_init(&table, NULL);
    for (size_t at = 0; at < vrp_count; at++) {
        int added = pfx_table_add(&table, &vrps[at]);
        if (added != PFX_SUCCESS && added != PFX_DUPLICATE_RECORD)
            return 1;
    }
    double made = now();
    for (size_t at = 0; at < route_count; at++) {
        enum pfxv_state state;
        if (pfx_table_validate(&table, routes[at].asn, &routes[at].address, routes[at].length, &state) != PFX_SUCCESS)
            return 1;
        states[at] = state;
    }
    double asked = now();

    if (!(file = fopen(words[3], "w")))
        return 1;
    for (size_t at = 0; at < route_count; at++)
        fprintf(file, "%s\n", names[states[at]]);
    fclose(file);
    printf("%.3f %.3f\n", made - began, asked - made);
    return 0;
}
