/* Does the same as table.c with std::vector, and prints no VRPs. */
#include <iostream>
#include <iterator>
#include <memory>
#include <pigyelund.h>
#include <stdexcept>
#include <vector>

/* Throws an exception if a call fails. */
static void check(pigy_status status) {
  if (status != PIGY_OK) throw std::runtime_error(pigy_status_text(status));
}

struct Free {
  void operator()(pigy_table *table) const { pigy_table_free(table); }
};
using Table = std::unique_ptr<pigy_table, Free>;

/* Returns the VRPs of a validator's file. */
static std::vector<pigy_vrp> read_vrps(const std::vector<uint8_t> &file) {
  std::vector<pigy_vrp> vrps(file.size() / 8 + 1); /* no VRP has fewer than 8 octets, so the file is read only once */
  size_t count, line;
  check(pigy_vrps_read(file.data(), file.size(), vrps.data(), vrps.size(), &count, &line));
  vrps.resize(count);
  return vrps;
}

static Table make_table(const std::vector<pigy_vrp> &vrps) {
  pigy_table *table;
  size_t index;
  check(pigy_table_new(vrps.data(), vrps.size(), &table, &index));
  return Table(table);
}

static Table change(const Table &table, const std::vector<pigy_vrp> &announced,
                    const std::vector<pigy_vrp> &withdrawn) {
  pigy_table *next;
  size_t index;
  check(pigy_table_with_changes(table.get(), announced.data(), announced.size(), withdrawn.data(), withdrawn.size(),
                                &next, &index));
  return Table(next);
}

/* Returns the validity of each route, and stores why it is invalid. */
static std::vector<uint8_t> validate(const Table &table, const std::vector<pigy_route> &routes,
                                     std::vector<uint8_t> &reasons) {
  std::vector<uint8_t> found(routes.size());
  size_t len, index;
  reasons.resize(routes.size());
  check(pigy_table_validate_routes(table.get(), routes.data(), routes.size(), found.data(), found.size(),
                                   reasons.data(), reasons.size(), &len, &index));
  return found;
}

/* Returns 1 for each route whose validity differs between two tables, and 0 for any other route. */
static std::vector<uint8_t> revalidate(const Table &old, const Table &next, const std::vector<pigy_route> &routes) {
  std::vector<uint8_t> found(routes.size());
  size_t len, index;
  check(pigy_table_revalidate(old.get(), next.get(), routes.data(), routes.size(), found.data(), found.size(), &len,
                              &index));
  return found;
}

int main() try {
  std::istreambuf_iterator<char> begin(std::cin), end;
  std::vector<uint8_t> file(begin, end);
  std::vector<pigy_vrp> vrps = read_vrps(file);
  /* 10.1.2.0/24 from AS64497; a VRP of 10.1.0.0/16 with maximum length 24 and AS64497 */
  std::vector<pigy_route> routes{{{10, 1, 2}, 64497, PIGY_IPV4, 24}};
  const pigy_vrp fresh{{10, 1}, 64497, PIGY_IPV4, 16, 24};
  std::vector<uint8_t> reasons;
  Table table = make_table(vrps);
  std::cout << (validate(table, routes, reasons)[0] == PIGY_INVALID ? "invalid: " : "otherwise: ")
            << (reasons[0] == PIGY_INVALID_LENGTH ? "too long" : "another AS") << std::endl;
  Table next = change(change(table, {fresh}, {}), {}, {vrps[0]});
  std::cout << (validate(next, routes, reasons)[0] == PIGY_VALID ? "valid" : "otherwise") << std::endl;
  std::cout << (revalidate(table, next, routes)[0] ? "differs" : "stays") << std::endl;
} catch (const std::exception &error) {
  std::cerr << error.what() << std::endl;
  return 1;
}
