/* Compares the resources of a certificate with those of a trust anchor: openssl ANCHOR CERTIFICATE, two files in PEM.
 * It checks no signatures. It prints the status. If the certificate overclaims, the program also prints the overclaimed
 * resources of one kind. This is the first overclaimed kind of AS numbers, IPv4 and IPv6. */
#include <openssl/pem.h>
#include <openssl/x509v3.h>
#include <pigyelund.h>
#include <stdio.h>

/* Finds an extension. Returns 1 if the certificate has it, and 0 if it does not. Returns -1 if the extension is there
 * twice (RFC 5280, 4.2), or if its value is empty. */
static int find(X509 *cert, int nid, const uint8_t **octets, size_t *len) {
  int at = X509_get_ext_by_NID(cert, nid, -1);
  *octets = NULL;
  *len = 0;
  if (at < 0) return 0;
  const ASN1_OCTET_STRING *value = X509_EXTENSION_get_data(X509_get_ext(cert, at));
  *octets = ASN1_STRING_get0_data(value);
  *len = (size_t)ASN1_STRING_length(value);
  return *len == 0 || X509_get_ext_by_NID(cert, nid, at) >= 0 ? -1 : 1;
}

/* Stores the extensions of a certificate, and which of the two it has. Returns 0 if one of them is malformed as `find`
 * says. pigy_resources_read would read an empty value of a trust anchor as no resources. */
static int resources(X509 *cert, pigy_set *set, pigy_present *present) {
  int as = find(cert, NID_sbgp_autonomousSysNum, &set->as, &set->as_len);
  int ip = find(cert, NID_sbgp_ipAddrBlock, &set->ip, &set->ip_len);
  *present = (as > 0 ? PIGY_HAS_AS : 0) | (ip > 0 ? PIGY_HAS_IP : 0);
  return as >= 0 && ip >= 0;
}

/* Prints overclaimed resources. They have one kind alone, which the status names. */
static void print_excess(const pigy_resources *excess, pigy_kind kind) {
  char text[1024];
  size_t len;
  pigy_status status = pigy_resources_text(excess, kind, text, sizeof text, &len);
  if (status == PIGY_OK && len < sizeof text)
    printf("overclaimed: %s\n", text);
  else
    printf("overclaimed: a text of %zu octets, which is not printed\n", len);
}

/* Verifies a certificate against a trust anchor, whose set is read once. Returns whether it is verified. */
static int verify(X509 *anchor, X509 *cert) {
  pigy_resources *issuer = NULL, *verified = NULL, *excess = NULL;
  pigy_present of_anchor, present;
  pigy_set set, claim;
  if (!resources(anchor, &set, &of_anchor) || !resources(cert, &claim, &present)) {
    puts("an extension is empty, or is there twice");
    return 0;
  }
  pigy_status status = of_anchor ? pigy_resources_read(set, PIGY_STRICT, &issuer) : PIGY_ABSENT;
  if (status == PIGY_OK)
    status = pigy_resources_verify(issuer, claim, present, PIGY_STRICT, PIGY_REFUSE, &verified, &excess);
  puts(pigy_status_text(status));
  if (status == PIGY_OVERCLAIM_AS) print_excess(excess, PIGY_ASN);
  if (status == PIGY_OVERCLAIM_V4) print_excess(excess, PIGY_IPV4);
  if (status == PIGY_OVERCLAIM_V6) print_excess(excess, PIGY_IPV6);
  pigy_resources_free(excess);
  pigy_resources_free(verified);
  pigy_resources_free(issuer);
  return status == PIGY_OK;
}

static X509 *read_certificate(const char *path) {
  FILE *file = fopen(path, "r");
  X509 *cert = file ? PEM_read_X509(file, NULL, NULL, NULL) : NULL;
  if (file) fclose(file);
  return cert;
}

int main(int argc, char **argv) {
  X509 *anchor = argc == 3 ? read_certificate(argv[1]) : NULL;
  X509 *cert = argc == 3 ? read_certificate(argv[2]) : NULL;
  int is_verified = 0;
  if (anchor && cert) {
    is_verified = verify(anchor, cert);
  } else {
    fputs("usage: program ANCHOR CERTIFICATE, two files in PEM\n", stderr);
  }
  X509_free(cert);
  X509_free(anchor);
  return !is_verified;
}
