/* Asks OpenSSL the cases of der_as, der_ip and verify_path: a line for each on standard input, and an answer for each
 * on standard output, as compare.py says.
 *
 * DER: X509V3_EXT_d2i reads the value, as it reads that of a certificate. X509v3_asid_is_canonical and
 * X509v3_addr_is_canonical say whether it is canonical. If X509v3_asid_canonize or X509v3_addr_canonize succeeds, the
 * answer has the octets that X509V3_EXT_i2d writes then.
 * Paths: X509v3_asid_validate_resource_set and X509v3_addr_validate_resource_set, with certificates that are not
 * signed. They have no policy to trim. */
#include <openssl/err.h>
#include <openssl/x509v3.h>
#include <stdio.h>
#include <stdlib.h>
#include <string.h>

enum { FIELDS = 64, LONGEST = 1 << 20 };
static char line[LONGEST];

/* An extension with a value, which a text has in hexadecimal. */
static X509_EXTENSION *extension_of(int nid, const char *text) {
    size_t count = strlen(text) / 2;
    ASN1_OCTET_STRING *value = ASN1_OCTET_STRING_new();
    unsigned char *octets = malloc(count + 1);
    if (!octets || !value)
        exit(1);
    for (size_t at = 0; at < count; at++) {
        unsigned octet;
        if (sscanf(text + 2 * at, "%2x", &octet) != 1)
            exit(1);
        octets[at] = (unsigned char)octet;
    }
    ASN1_OCTET_STRING_set(value, octets, (int)count);
    X509_EXTENSION *made = X509_EXTENSION_create_by_NID(NULL, nid, 1, value);
    ASN1_OCTET_STRING_free(value);
    free(octets);
    return made;
}

/* The value of an extension, NULL if it is refused. */
static void *read_value(int nid, const char *text) {
    X509_EXTENSION *extension = extension_of(nid, text);
    void *found = X509V3_EXT_d2i(extension);
    X509_EXTENSION_free(extension);
    return found;
}

static void free_value(int nid, void *value) {
    if (value && nid == NID_sbgp_autonomousSysNum)
        ASIdentifiers_free(value);
    else if (value)
        sk_IPAddressFamily_pop_free((IPAddrBlocks *)value, IPAddressFamily_free);
}

/* Prints the octets that are written of a value. */
static void print_octets(int nid, void *value) {
    X509_EXTENSION *made = X509V3_EXT_i2d(nid, 1, value);
    const ASN1_OCTET_STRING *octets = made ? X509_EXTENSION_get_data(made) : NULL;
    putchar(' ');
    for (int at = 0; octets && at < ASN1_STRING_length(octets); at++)
        printf("%02x", ASN1_STRING_get0_data(octets)[at]);
    X509_EXTENSION_free(made);
}

static void of_value(int nid, const char *text) {
    int is_as = nid == NID_sbgp_autonomousSysNum;
    void *found = read_value(nid, text);
    if (!found) {
        puts("refuse");
        return;
    }
    int is_canonical = is_as ? X509v3_asid_is_canonical(found) : X509v3_addr_is_canonical(found);
    fputs(is_canonical ? "canonical" : "valid", stdout);
    if (is_as ? X509v3_asid_canonize(found) : X509v3_addr_canonize(found))
        print_octets(nid, found);
    putchar('\n');
    free_value(nid, found);
}

/* A certificate with a resource extension, or with none if the text is `-`. Nothing is signed. */
static X509 *certificate(int nid, const char *text) {
    X509 *made = X509_new();
    if (!made || !X509_set_version(made, 2))
        exit(1);
    if (strcmp(text, "-")) {
        X509_EXTENSION *extension = extension_of(nid, text);
        if (!X509_add_ext(made, extension, -1))
            exit(1);
        X509_EXTENSION_free(extension);
    }
    X509_check_purpose(made, -1, 0); /* reads the extensions */
    return made;
}

/* A path: each claim has to be inside the resources of the certificates above it. */
static void of_path(char **fields, int count) {
    int nid = strcmp(fields[1], "as") ? NID_sbgp_ipAddrBlock : NID_sbgp_autonomousSysNum;
    int is_good = 1, is_asked = 1;
    STACK_OF(X509) *chain = sk_X509_new_null();
    sk_X509_push(chain, certificate(nid, fields[2]));
    for (int at = 3; at < count; at++) {
        char *claim = strchr(fields[at], ' ') + 1;
        void *value = strcmp(claim, "-") ? read_value(nid, claim) : NULL;
        if (!strncmp(fields[at], "trim", 4))
            is_asked = 0;
        if (value && nid == NID_sbgp_autonomousSysNum)
            is_good &= X509v3_asid_validate_resource_set(chain, value, 1);
        else if (value)
            is_good &= X509v3_addr_validate_resource_set(chain, value, 1);
        free_value(nid, value);
        sk_X509_unshift(chain, certificate(nid, claim));
    }
    puts(!is_asked ? "-" : is_good ? "accept" : "refuse");
    sk_X509_pop_free(chain, X509_free);
}

int main(void) {
    while (fgets(line, sizeof line, stdin)) {
        char *fields[FIELDS], *rest = line;
        int count = 0;
        line[strcspn(line, "\n")] = '\0';
        while (count < FIELDS && rest) {
            fields[count++] = rest;
            if ((rest = strchr(rest, '\t')))
                *rest++ = '\0';
        }
        if (!strcmp(fields[0], "der_as"))
            of_value(NID_sbgp_autonomousSysNum, fields[1]);
        else if (!strcmp(fields[0], "der_ip"))
            of_value(NID_sbgp_ipAddrBlock, fields[1]);
        else if (!strcmp(fields[0], "verify_path"))
            of_path(fields, count);
        else
            puts("-");
        ERR_clear_error();
    }
    return 0;
}
