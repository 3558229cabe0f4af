/* Passes data() of empty vectors to calls that take arrays. data() may be NULL then. The status is 0 if each call
 * returns what the header says. tests/run/foreign.sh builds it with UndefinedBehaviorSanitizer if that is installed: the
 * program ends if it passes a null pointer to a parameter that must not be NULL. */
#include <pigyelund.h>
#include <vector>

static const pigy_set empty = {nullptr, 0, nullptr, 0};

static bool tables() {
  std::vector<uint8_t> octets;
  std::vector<pigy_vrp> vrps;
  std::vector<pigy_route> routes;
  pigy_table *table;
  size_t len, index, other;
  if (pigy_table_new(vrps.data(), vrps.size(), &table, &index) != PIGY_OK) return false;
  bool is_so = pigy_table_validate_routes(table, routes.data(), routes.size(), octets.data(), octets.size(),
                                          octets.data(), octets.size(), &len, &index) == PIGY_OK && len == 0;
  std::vector<const pigy_table *> several;
  is_so = is_so && pigy_tables_validate_routes(several.data(), several.size(), routes.data(), routes.size(),
                                               octets.data(), octets.size(), octets.data(), octets.size(), &len,
                                               &index) == PIGY_OK && len == 0;
  is_so = is_so && pigy_table_changes(table, table, vrps.data(), vrps.size(), &len, vrps.data(), vrps.size(),
                                      &other) == PIGY_OK && len == 0 && other == 0;
  is_so = is_so && pigy_table_vrps(table, vrps.data(), vrps.size(), &len) == PIGY_OK && len == 0;
  is_so = is_so && pigy_slurm_apply(octets.data(), octets.size(), vrps.data(), vrps.size(), vrps.data(), vrps.size(),
                                    &len, &index, &other) == PIGY_BAD_SLURM + 1 && len == 0 && other == 0;
  pigy_table_free(table);
  return is_so;
}

static bool sets() {
  std::vector<uint8_t> octets;
  std::vector<pigy_certificate> certificates;
  std::vector<pigy_ip_range> ranges;
  pigy_buffers out = {octets.data(), octets.size(), 1, octets.data(), octets.size(), 1}, excess = out;
  size_t len, verified;
  if (pigy_verify_path(empty, octets.data(), octets.size(), certificates.data(), certificates.size(), PIGY_STRICT,
                       &out, &excess, &verified) != PIGY_OK)
    return false;
  if (out.as_len || out.ip_len || excess.as_len || excess.ip_len || verified) return false;
  return pigy_ip_ranges(octets.data(), 0, PIGY_STRICT, PIGY_IPV4, ranges.data(), ranges.size(), &len) == PIGY_OK &&
         len == 0;
}

static bool handles() {
  std::vector<char> text;
  std::vector<pigy_prefix> prefixes;
  pigy_resources *set;
  size_t len;
  if (pigy_resources_from_text(text.data(), text.size(), PIGY_ASN, &set) != PIGY_OK) return false;
  bool is_so = pigy_resources_prefixes(set, PIGY_IPV6, prefixes.data(), prefixes.size(), &len) == PIGY_OK && len == 0;
  is_so = is_so && pigy_resources_text(set, PIGY_ASN, text.data(), text.size(), &len) == PIGY_OK && len == 0;
  pigy_resources_free(set);
  return is_so;
}

static bool line() {
  std::vector<char> line{'n', 'o', 'r', 'm', ' ', 'a', 's', ' ', '1'}, answer;
  size_t len;
  if (pigy_answer(line.data(), line.size(), answer.data(), answer.size(), &len) != PIGY_TOO_SMALL) return false;
  answer.resize(len);
  return pigy_answer(line.data(), line.size(), answer.data(), answer.size(), &len) == PIGY_OK && len == 3;
}

int main() { return tables() && sets() && handles() && line() ? 0 : 1; }
