/* resolvers: prints the encrypted DNS resolvers that an area carries.
 *
 *     resolvers [CARRIER FILE]
 *
 * CARRIER is dhcp4, dhcp6, ra, ike4 or ike6, or its number from 1 to 5; FILE holds the area's octets as hexadecimal digits, with blanks
 * and line breaks where one likes. Without arguments the area is the DHCPv6 option of `builtin`. The exit status is 0 if the area was
 * read, 1 if it was refused, and 2 if there was nothing to read. host/dnr/examples/resolvers.rs is the same program in Rust.
 */
#define _POSIX_C_SOURCE 200809L
#include "dnr.h"

#include <arpa/inet.h>
#include <ctype.h>
#include <stdio.h>
#include <stdlib.h>
#include <string.h>

enum { ALPN = 1, PORT = 3 };

static const char *const names[] = {"", "dhcp4", "dhcp6", "ra", "ike4", "ike6"};

/* DHCPv6 option 144: priority 1, doh1.example.com, 2001:db8:122:300::1, alpn "dot". */
static const uint8_t builtin[] =
    "\x00\x90\x00\x30\x00\x01\x00\x12\x04" "doh1\x07" "example\x03" "com\x00"
    "\x00\x10\x20\x01\x0d\xb8\x01\x22\x03\x00\x00\x00\x00\x00\x00\x00\x00\x01\x00\x01\x00\x04\x03" "dot";

static unsigned u16(const uint8_t *octets)
{
    return (unsigned)octets[0] << 8 | octets[1];
}

static unsigned long u32(const uint8_t *octets)
{
    return (unsigned long)u16(octets) << 16 | u16(octets + 2);
}

static void print_name(const uint8_t *name)
{
    for (const uint8_t *label = name; *label != 0; label += 1 + *label)
        printf("%s%.*s", label == name ? "" : ".", (int)*label, (const char *)label + 1);
    putchar('\n');
}

static void print_address(unsigned width, const uint8_t *address)
{
    char text[INET6_ADDRSTRLEN];
    if (inet_ntop(width == 4 ? AF_INET : AF_INET6, address, text, sizeof text) != NULL)
        printf("  address %s\n", text);
}

/* ALPN ids may hold any octet; comma, backslash and all that is not visible ASCII are written as \DDD (RFC 9460 §A.1). */
static void print_alpn(const uint8_t *value, unsigned length)
{
    const uint8_t *const end = value + length;
    printf("  alpn ");
    for (const uint8_t *id = value; id < end; id += 1 + *id) {
        if (id != value)
            putchar(',');
        for (unsigned i = 1; i <= *id; i++) {
            if (id[i] > 0x20 && id[i] < 0x7f && id[i] != ',' && id[i] != '\\')
                putchar(id[i]);
            else
                printf("\\%03u", (unsigned)id[i]);
        }
    }
    putchar('\n');
}

static void print_parameters(const uint8_t *parameters, unsigned length)
{
    const uint8_t *const end = parameters + length;
    for (const uint8_t *p = parameters; p < end; p += 4 + u16(p + 2)) {
        const unsigned key = u16(p), size = u16(p + 2);
        if (key == ALPN)
            print_alpn(p + 4, size);
        else if (key == PORT)
            printf("  port %u\n", u16(p + 4));
        else
            printf("  key%u %u octets\n", key, size);
    }
}

/* Walks one record of a sheet that dnr_read wrote, and gives back where the next one begins. */
static const uint8_t *print_record(unsigned carrier, const uint8_t *record)
{
    const unsigned width = carrier == DNR_DHCP4 || carrier == DNR_IKE4 ? 4 : 16;
    const uint8_t *at = record + 8;
    print_name(at);
    at += record[7];
    printf("  priority %u\n", u16(record));
    if (carrier == DNR_RA)
        printf("  lifetime %lu\n", u32(record + 2));
    if (record[6] == 0) {
        puts("  name only");
        return at;
    }
    unsigned addresses = *at++;
    for (; addresses > 0; addresses--, at += width)
        print_address(width, at);
    const unsigned length = u16(at);
    print_parameters(at + 2, length);
    return at + 2 + length;
}

static int print_resolvers(unsigned carrier, const uint8_t *area, size_t area_len)
{
    static uint8_t sheet[DNR_MAX_SHEET];
    const dnr_reading reading = dnr_read(carrier, area, area_len, sheet, sizeof sheet);
    char why[DNR_MAX_WORDS];
    if (reading.number != DNR_DONE) {
        dnr_words(reading.number, why, sizeof why);
        printf("%s: refusal %zu: %s\n", names[carrier], reading.number, why);
        return 1;
    }
    printf("%s: %zu found, %zu discarded", names[carrier], reading.found, reading.discarded);
    if (reading.discarded > 0) {
        dnr_words(reading.fault, why, sizeof why);
        printf(", first fault %zu", reading.fault);
        if (reading.fault == DNR_FAULT_NAME)
            printf(" at octet %zu of its block", reading.place);
        printf(": %s", why);
    }
    putchar('\n');
    const uint8_t *record = sheet + 7;
    for (unsigned left = sheet[6]; left > 0; left--)
        record = print_record(carrier, record);
    return 0;
}

/* The number of a carrier, or 0. */
static unsigned carrier_of(const char *text)
{
    for (unsigned carrier = DNR_DHCP4; carrier <= DNR_IKE6; carrier++)
        if (strcmp(text, names[carrier]) == 0 || (text[0] == (char)('0' + carrier) && text[1] == '\0'))
            return carrier;
    return 0;
}

/* One hexadecimal digit of the file, blanks skipped; -1 at the end, -2 for anything else. */
static int digit(FILE *file)
{
    int c;
    do
        c = getc(file);
    while (c != EOF && isspace(c));
    if (c == EOF)
        return -1;
    if (!isxdigit(c))
        return -2;
    return isdigit(c) ? c - '0' : tolower(c) - 'a' + 10;
}

/* Reads at most `room` octets; 0 if the file holds nothing but pairs of digits. */
static int read_hex(FILE *file, uint8_t *octets, size_t room, size_t *length)
{
    for (*length = 0;; ++*length) {
        const int high = digit(file), low = high < 0 ? high : digit(file);
        if (low < 0)
            return high == -1 ? 0 : -1;
        if (*length == room)
            return 0;
        octets[*length] = (uint8_t)(high << 4 | low);
    }
}

int main(int argc, char **argv)
{
    if (argc == 1)
        return print_resolvers(DNR_DHCP6, builtin, sizeof builtin - 1);
    const unsigned carrier = argc == 3 ? carrier_of(argv[1]) : 0;
    if (carrier == 0) {
        fprintf(stderr, "usage: resolvers [dhcp4|dhcp6|ra|ike4|ike6 FILE]\n");
        return 2;
    }
    FILE *file = fopen(argv[2], "r");
    if (file == NULL) {
        perror(argv[2]);
        return 2;
    }
    /* One octet more than dnr_read takes, so that it refuses a longer file with 2. */
    static uint8_t area[DNR_MAX_INPUT + 1];
    size_t length;
    const int wrong = read_hex(file, area, sizeof area, &length);
    fclose(file);
    if (wrong) {
        fprintf(stderr, "%s: not pairs of hexadecimal digits\n", argv[2]);
        return 2;
    }
    return print_resolvers(carrier, area, length);
}
