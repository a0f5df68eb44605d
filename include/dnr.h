/* dnr.h: encrypted DNS resolvers learned from the network (RFC 9463, RFC 9464).
 *
 * The functions of libdnr.a. dnr_read takes an area (the options field of a DHCP message or router advertisement, or a run of IKEv2
 * configuration attributes) and writes the record sheet of its resolvers. dnr_write takes a record sheet and writes the options or
 * attributes that carry it. What dnr_write writes, dnr_read reads back into the same sheet. dnr_words says in words what a number that
 * they give back means.
 *
 * Buffers    The caller lends them for the time of the call: nothing that is passed is kept, and nothing has to be freed. The two buffers
 *            of one call must not overlap. A pointer may be NULL where its length is 0, which is an empty input or an output without
 *            room; with any other length it points to that many octets. No alignment is asked for.
 * Input      Any octets of any length. The calls test what they need themselves, always return, read nothing outside the input and write
 *            nothing outside the output.
 * Output     Only the first length octets of it are written; past them it is unchanged. A call that refuses changes no octet of it.
 *            dnr_words writes a C string, and nothing past its closing 0.
 * State      There is none: no allocation, no global variable, no errno, no call but to memcpy, memmove and memset. Any number of threads
 *            may call at once, without locks, as long as nobody else writes to the buffers of a running call.
 * Stack      dnr_read needs 43 KiB, of which 40 KiB are the buffer where several options 162 of a DHCPv4 area are joined; dnr_write needs
 *            1 KiB, dnr_words 1.3 KiB (measured on x86-64, as rattle-kit-5b built the library; have 48 KiB for dnr_read and 4 KiB for the
 *            others).
 * Numbers    In areas, sheets and options all numbers stand most significant octet first.
 */
#ifndef DNR_H
#define DNR_H

#include <stddef.h>
#include <stdint.h>

#ifdef __cplusplus
extern "C" {
#endif

/* Carriers: the first argument of dnr_read, and the carrier octet of a sheet. */
enum {
    DNR_DHCP4 = 1, /* DHCPv4 option 162 */
    DNR_DHCP6 = 2, /* DHCPv6 option 144 */
    DNR_RA = 3,    /* router advertisement option 144 */
    DNR_IKE4 = 4,  /* IKEv2 attribute 27, ENCDNS_IP4 */
    DNR_IKE6 = 5   /* IKEv2 attribute 28, ENCDNS_IP6 */
};

/* Limits, in octets but for the two counts. A sheet buffer of DNR_MAX_SHEET, an octets buffer of DNR_MAX_OCTETS and a text buffer of
 * DNR_MAX_WORDS are never too short. */
enum {
    DNR_MAX_INPUT = 40960,     /* an area or a sheet that is taken */
    DNR_MAX_OCTETS = 40960,    /* what dnr_write writes */
    DNR_MAX_SHEET = 36775,     /* what dnr_read writes */
    DNR_MAX_RECORDS = 16,      /* records of a sheet */
    DNR_MAX_ADDRESSES = 63,    /* addresses of a record */
    DNR_MAX_PARAMETERS = 1024, /* the parameters of a record */
    DNR_MAX_WORDS = 160        /* what dnr_words writes, with the closing 0 */
};

/* What the fields named number and fault hold, with the words that dnr_words says of each.
 * The refusals are answers of a call: 1 to 5 of dnr_read, tested in this order; 2, 40, 41, 42, 4, 43, then for each record in turn the
 * faults 21 to 28, then 44, then 5 of dnr_write, tested in this order.
 * The faults are why dnr_read discarded a block: the first of them in the order below. */
enum {
    DNR_DONE = 0,

    DNR_REFUSAL_CARRIER = 1,        /* carrier number not 1 to 5 */
    DNR_REFUSAL_INPUT = 2,          /* input longer than 40,960 octets */
    DNR_REFUSAL_FRAMING = 3,        /* the area is not whole options: a header or body runs past the end, or a length of 0 in a router advertisement */
    DNR_REFUSAL_RECORDS = 4,        /* more than 16 records */
    DNR_REFUSAL_ROOM = 5,           /* output shorter than the result */

    DNR_FAULT_FIELD = 20,           /* the block ends too early: a length says more octets than are left, or a field is missing */
    DNR_FAULT_PADDING = 29,         /* what follows the last field is not 0 to 7 zeros */
    DNR_FAULT_PRIORITY = 21,        /* priority 0 (AliasMode) */
    DNR_FAULT_NAME = 22,            /* the name is no host name: labels of 1 to 63 letters, digits and inner hyphens, 255 octets in all */
    DNR_FAULT_ADDRESSES = 23,       /* no addresses, their length is no multiple of 4 (IPv4) or 16 (IPv6), or name only in IKEv2 */
    DNR_FAULT_LIMIT = 24,           /* more than 63 addresses, or over 1,024 octets of parameters */
    DNR_FAULT_DROPPED = 25,         /* no usable address, or an unusable one in a sheet */
    DNR_FAULT_PARAMETERS = 26,      /* service parameters are cut short, or their keys do not rise, or one is 65535 */
    DNR_FAULT_HINT = 27,            /* address hint among the service parameters (key 4 or 6), where addresses have a field of their own */
    DNR_FAULT_VALUE = 28,           /* a service parameter is not as its key asks: mandatory (0), alpn (1),
                                       no-default-alpn (2, only beside alpn) or port (3) */

    DNR_REFUSAL_SHEET = 40,         /* not a record sheet: shorter than 7 octets, or not beginning with RSV */
    DNR_REFUSAL_VERSION = 41,       /* record sheet version not 1 */
    DNR_REFUSAL_SHEET_CARRIER = 42, /* record sheet carrier not 1 to 5 */
    DNR_REFUSAL_TILING = 43,        /* the record sheet is damaged: lengths do not add up, a mode is not 0 or 1, priorities fall, or a
                                       lifetime stands where none belongs */
    DNR_REFUSAL_LARGE = 44          /* router advertisement record above 2,040 octets */
};

/* The record sheet. Its fields in order, with the octets of those that have a fixed number:
 *
 *   octets  header                 octets  record                         octets  and in mode 1
 *   3       the letters R S V      2       priority                       1       address count
 *   2       version, which is 1    4       lifetime                               addresses
 *   1       carrier                1       mode: 0 name only, 1 full      2       parameter length
 *   1       record count           1       name length                            parameters
 *                                          name
 *
 * Records stand by rising priority, equal ones in the order of arrival, and nothing follows the last. The lifetime, in seconds, is that
 * of a router advertisement, where all ones are for ever and a resolver with 0 must no longer be used (RFC 9463 §6.1); for the
 * other carriers it is 0 and says nothing. The name is in DNS wire form, 3 to 255 octets of labels behind their lengths and the root
 * octet; the labels are letters, digits and hyphens. An address has 4 octets for DNR_DHCP4 and DNR_IKE4, else 16; none is multicast or
 * loopback. A parameter is key 2, length 2, value, by rising key (RFC 9460): key 1 (alpn) holds strings behind their 8-bit lengths,
 * key 3 the port.
 * In a sheet that dnr_read wrote all this holds, so a program may walk it without testing it again; examples/resolvers.c does. */

/* The place of a bad name, which fault 22 has when dnr_read discards a block and refusal 22 when dnr_write refuses a sheet. It counts from
 * 0 and is the first octet of the name at which no host name can continue; where the name is only cut short it is the index after its
 * last octet, which may be the length of the block or of the sheet: compare before looking at the octet there.
 *   dnr_read   counts from the first octet of the block, that of its option's or attribute's header: the name begins at 8 in DHCPv6, at 10
 *              in a router advertisement, and in IKEv2 at 8 plus the octets of all addresses, where the octet is one of the name's text.
 *              DHCPv4: the block is the data of all options 162 joined, and it counts from their first octet. The two octets of code and
 *              length before each option's data are not counted, the 16-bit length of each instance is: an instance that starts with its
 *              length at s has its name at s + 5.
 *   dnr_write  counts from the sheet's first octet, in the wire form that a sheet holds for every carrier: the name of a record that starts
 *              at s begins at s + 8.
 * For every other fault and every other refusal, and where there is neither, place is 0; for a bad name it never is. */

/* The sizes of the two structs are part of the interface: compile with the header of the library that is linked. */

/* What dnr_read gives back.
 *   number     DNR_DONE, or a refusal, 1 to 5, with every other field 0.
 *   length     octets of the sheet that were written.
 *   found      blocks of the carrier that the area has (DHCPv4: all options 162 together are one).
 *   discarded  those of them that were discarded for a fault.
 *   fault      the first discarded block's fault, 20 to 29, or 0.
 *   place      where that block's name is wrong, if the fault is 22; else 0.
 */
typedef struct {
    size_t number, length, found, discarded, fault, place;
} dnr_reading;

/* Reads an area and writes the record sheet of its resolvers. Options of other codes are skipped, multicast and loopback addresses
 * dropped, and a block with a fault is discarded whole while the reading goes on; an area without any gives a sheet of no records.
 * The whole number of the carrier is looked at: 257 is refused with 1, it is not DHCPv4. */
dnr_reading dnr_read(size_t carrier, const uint8_t *area, size_t area_len, uint8_t *sheet, size_t sheet_len);

/* What dnr_write gives back.
 *   number     DNR_DONE, or a refusal, one of 2, 4, 5, 21 to 28 and 40 to 44, with length 0.
 *   length     octets that were written.
 *   place      where the name is wrong for which the sheet is refused with 22; else 0. This is the one refusal that gives back another
 *              number than zero beside its own.
 */
typedef struct {
    size_t number, length, place;
} dnr_result;

/* Takes a record sheet and writes its records in sheet order under its own carrier: DHCPv4 as options 162 of 255 octets each and a last
 * one of 1 to 255, without the end option 255; the others as an option or attribute each. Nothing is written for a sheet of no records,
 * and nothing is dropped: an address that reading would drop is refused with 25. */
dnr_result dnr_write(const uint8_t *sheet, size_t sheet_len, uint8_t *octets, size_t octets_len);

/* Says in words, in English and ASCII, what a number means: 0 "done", a refusal or a fault as it stands beside it above, any other
 * "unknown number". As many characters as fit are written to text before a closing 0, and nothing past that; with text_len 0, nothing.
 * Gives back how many characters stand before the 0. With DNR_MAX_WORDS octets of room no word is ever cut:
 *
 *     char why[DNR_MAX_WORDS]; dnr_words(reading.fault, why, sizeof why); puts(why);
 */
size_t dnr_words(size_t number, char *text, size_t text_len);

#ifdef __cplusplus
}
#endif

#endif
