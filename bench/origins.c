/* The tables of `crates/bench_growth/src/worst.rt` in rtrlib's pfx_table: what `bench/slowest_tables.py` compares. Arguments:
 * `one` or `chain`, and how many VRPs. It prints what the Rattle program prints. */
#include <rtrlib/rtrlib.h>
#include <stdint.h>
#include <stdio.h>
#include <stdlib.h>
#include <string.h>
#include <time.h>

static double seconds(void)
{
	struct timespec now;

	clock_gettime(CLOCK_PROCESS_CPUTIME_ID, &now);
	return now.tv_sec + now.tv_nsec * 1e-9;
}

static struct lrtr_ip_addr address(uint32_t bits)
{
	struct lrtr_ip_addr made = {.ver = LRTR_IPV4};

	made.u.addr4.addr = bits;
	return made;
}

static uint32_t first_bits(uint32_t bits, unsigned int len)
{
	return len == 0 ? 0 : bits & ~(uint32_t)0 << (32 - len);
}

static void ask(struct pfx_table *table, uint32_t bits, uint8_t len, uint32_t asn)
{
	unsigned long counts[3] = {0};
	uint64_t mark = 0;
	struct lrtr_ip_addr route = address(bits);
	double start = seconds();

	for (int turn = 0; turn < 1000; turn++) {
		enum pfxv_state state;

		if (pfx_table_validate(table, asn, &route, len, &state) != PFX_SUCCESS)
			exit(1);
		int place = state == BGP_PFXV_STATE_VALID ? 0 : state == BGP_PFXV_STATE_INVALID ? 1 : 2;

		counts[place]++;
		mark = mark * 31 + place + 1;
	}
	fprintf(stderr, "routes 1000 %.0f\n", (seconds() - start) * 1e6);
	printf("1000 routes: %lu Valid, %lu Invalid, %lu NotFound, mark %llu\n", counts[0], counts[1], counts[2],
	       (unsigned long long)mark);
}

int main(int argc, char **argv)
{
	if (argc != 3)
		return 2;
	int is_chain = strcmp(argv[1], "chain") == 0;
	unsigned int first = is_chain ? 1 : 8, lengths = is_chain ? 32 : 1;
	unsigned long count = strtoul(argv[2], NULL, 10);
	struct pfx_table table;

	pfx_table_init(&table, NULL);
	for (unsigned long number = 0; number < count; number++) {
		uint8_t len = first + number % lengths;
		struct pfx_record record = {.asn = number / lengths + 1, .min_len = len, .max_len = len};

		record.prefix = address(first_bits(0x0a000000, len));
		if (pfx_table_add(&table, &record) != PFX_SUCCESS)
			return 1;
	}
	ask(&table, 0x0b000000, 24, 65536);
	ask(&table, 0x0a000000, 32, 65536);
	ask(&table, 0x0a000000, 8, 1);
	pfx_table_free(&table);
	return 0;
}
