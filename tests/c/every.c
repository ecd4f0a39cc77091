/*
 * Every function of bgp_policy.h but those of sending, of the check of what another make sent and of the index, on cases of the
 * documents: the answer, the number beside it and every byte of the buffer, and that the bytes handed in stay. Prints a line for each
 * check, last 'N passed, M failed'; the status is 0 where none failed.
 */
#include "checks.h"
#include <bgp_policy.h>
#include <netinet/in.h>

static void opening(const char *name, uint8_t role, uint8_t strict, const char *parameters, unsigned want, size_t want_beside)
{
    size_t n = hand(0, parameters);
    check("bgp_open", name, bgp_open(role, strict, in[0], n, &beside), want, want_beside, UNSET, "");
}

/* Receipt at AS 64500 from AS 64510, with how many tags are thrown out and the state handed on; `one` is 1 under one
   administration. On answer 0 `stored` is the new block, else "". */
static void owned_receipt(const char *name, uint8_t role, uint8_t mode, uint8_t one, const char *block, size_t room,
                          unsigned want, size_t want_beside, size_t thrown_out, size_t state, const char *stored)
{
    size_t n = hand(0, block);
    want_state = state;
    check("bgp_receive", name, bgp_receive(64500, 64510, role, mode, one, in[0], n, out, room, &beside, &left, &handed_on),
          want, want_beside, thrown_out, stored);
}

/* Receipt from another administration, which hands on no state. */
static void receipt(const char *name, uint8_t role, uint8_t mode, const char *block, size_t room,
                    unsigned want, size_t want_beside, size_t thrown_out, const char *stored)
{
    owned_receipt(name, role, mode, 0, block, room, want, want_beside, thrown_out, 3, stored);
}

static void origin(const char *name, uint8_t length, uint32_t prefix, const char *table, const char *block,
                   unsigned want, size_t want_beside)
{
    size_t t = hand(0, table), n = hand(1, block);
    check("bgp_origin_state", name, bgp_origin_state(length, prefix, 64500, in[0], t, in[1], n, &beside),
          want, want_beside, UNSET, "");
}

/* The prefix, 16 bytes in hex, is handed on from a struct in6_addr as the header shows. */
static void origin6(const char *name, uint8_t length, const char *digits, const char *table, const char *block,
                    unsigned want, size_t want_beside)
{
    size_t t = hand(0, table), n = hand(1, block);
    struct in6_addr prefix;
    uint64_t prefix_high = 0, prefix_low = 0;
    spell(digits, prefix.s6_addr);
    for (int i = 0; i < 8; i++) {
        prefix_high = prefix_high << 8 | prefix.s6_addr[i];
        prefix_low = prefix_low << 8 | prefix.s6_addr[8 + i];
    }
    check("bgp_origin_state6", name,
          bgp_origin_state6(length, prefix_high, prefix_low, 64500, in[0], t, in[1], n, &beside),
          want, want_beside, UNSET, "");
}

static void tag(const char *name, const char *block, unsigned want, size_t want_beside, size_t thrown_out)
{
    size_t n = hand(0, block);
    check("bgp_received_tag", name, bgp_received_tag(in[0], n, &beside, &left), want, want_beside, thrown_out, "");
}

/* Choosing among candidates with the blocks PATH (at 0), OWN (at 13) and OWN with an OTC (at 20), 34 bytes in all. */
static void choosing(const char *name, uint8_t mode, uint32_t client, const char *candidates,
                     unsigned want, size_t want_beside, size_t want_left)
{
    size_t c = hand(0, candidates), n = hand(1, PATH OWN OWN OTC "00000001");
    check("bgp_choose", name, bgp_choose(mode, client, in[1], n, in[0], c, &beside, &left), want, want_beside, want_left, "");
}

/* Comparing two of state 0 (the second's may be another), with the identifiers 1 and 2 and one address. */
static void comparing(const char *name, const char *first, const char *second, uint8_t state, unsigned want, size_t want_beside)
{
    size_t m = hand(0, first), n = hand(1, second);
    check("bgp_better", name, bgp_better(in[0], m, 0, 1, 7, in[1], n, state, 2, 7, &beside), want, want_beside, UNSET, "");
}

/* Under one administration receipt keeps tags of 0 to 2, which tell the state. */
static void one_owner(void)
{
    static const char tags[] = OWN "C01018" TAG "01" TAG "07" TAG "00";
    owned_receipt("one owner, tags 1, 7 and 0", 0, 1, 1, tags, BLOCK_MAX, 0, 26, 1, 1, OWN "C01010" TAG "01" TAG "00");
    owned_receipt("one owner, a byte too little", 0, 1, 1, tags, 25, 7, 0, 0, 3, "");
    owned_receipt("two owners, tags 1, 7 and 0", 0, 1, 0, tags, BLOCK_MAX, 0, 7, 1, 3, OWN);
    owned_receipt("one owner, tag 0", 3, 1, 1, OWN "C01008" TAG "00", BLOCK_MAX, 0, 25, 0, 0,
                  OWN "C01008" TAG "00" PARTIAL_OTC "0000FBFE");
    owned_receipt("one owner, tag 2 of an RS", 2, 1, 1, OWN "C01008" TAG "02" OTC "0000FBFE", BLOCK_MAX, 0, 25, 0, 2,
                  OWN "C01008" TAG "02" OTC "0000FBFE");
    owned_receipt("one owner, tag 3 alone", 0, 1, 1, OWN "C01008" TAG "03", BLOCK_MAX, 0, 7, 1, 3, OWN);
    owned_receipt("one owner, no tag", 0, 1, 1, OWN, BLOCK_MAX, 0, 7, 0, 3, OWN);
    owned_receipt("one owner, a leak with tags 1 and 7", 0, 1, 1, OWN "C01010" TAG "01" TAG "07" OTC "0000FBFE", BLOCK_MAX,
                  1, 1, 1, 3, "");
    owned_receipt("one owner, no ORIGIN", 0, 1, 1, "400200C01008" TAG "00", BLOCK_MAX, 3, 3, 0, 3, "");
    owned_receipt("one owner at a route server", 1, 1, 1, OWN, BLOCK_MAX, 5, 0, 0, 3, "");
    owned_receipt("byte 2", 0, 1, 2, OWN, BLOCK_MAX, 5, 0, 0, 3, "");
    owned_receipt("byte 2, 4,074 bytes", 0, 1, 2, filled(OVER, 4074), sizeof out, 5, 0, 0, 3, "");
}

int main(void)
{
    /* Roles: 0 Provider, 1 RS, 2 RS-Client, 3 Customer, 4 Peer; the role given is this end's */
    static const char vrp[] = "0A00000010140000FBF4"; /* 10.0.0.0/16, maximum 20, AS 64500 */
    static const char vrp6[] = "20010DB8000000000000000000000000" "20300000FBF4"; /* 2001:db8::/32, maximum 48, AS 64500 */
    static const char mapped[] = "00000000000000000000FFFF0A001000";              /* ::ffff:10.0.16.0 */
    static const char path[] = "000000000000000D000000000A0A000001", own[] = "0000000D0000000702000000140A000002";
    static const char with_otc[] = "000000140000000E00000000010A000003", outside[] = "0000001C0000000700000000010A000004";
    const char *block;

    opening("P1, both Peers", 4, 1, "0203090104", 0, 4);
    opening("a Provider's end, no role named", 0, 0, "", 0, 3);
    opening("255 bytes", 4, 1, filled("02FD09010441F8", 255), 0, 4);
    opening("256 bytes", 4, 1, filled("02FD09010441F8", 256), 6, 0);
    opening("strict, and no role named", 4, 1, "", 4, 0);
    opening("two unequal roles", 4, 1, "0206090104090103", 4, 0);
    opening("local role 5", 5, 1, "0203090104", 5, 0);
    opening("a parameter of type 1", 4, 1, "0103090104", 8, 0);

    receipt("P2, from a Peer", 4, 1, PATH, BLOCK_MAX, 0, 20, 0, PATH PARTIAL_OTC "0000FBFE");
    receipt("P2, just room", 4, 1, PATH, 20, 0, 20, 0, PATH PARTIAL_OTC "0000FBFE");
    receipt("P2, a byte too little", 4, 1, PATH, 19, 7, 0, 0, "");
    receipt("P3, a Peer's OTC of another AS", 4, 1, PATH OTC "0000FBF5", BLOCK_MAX, 1, 2, 0, "");
    receipt("an OTC from a Customer", 0, 1, PATH OTC "0000FBFE", BLOCK_MAX, 1, 1, 0, "");
    receipt("a Peer's OTC of its own AS", 4, 1, PATH OTC "0000FBFE", BLOCK_MAX, 0, 20, 0, PATH OTC "0000FBFE");
    receipt("tags 0 and 7 go", 0, 1, OWN "C01010" TAG "00" TAG "07", BLOCK_MAX, 0, 7, 1, OWN);
    block = filled(FULL, 4073);
    receipt("4,073 bytes from a Customer", 0, 1, block, BLOCK_MAX, 0, 4073, 0, block);
    receipt("4,073 bytes and an OTC", 4, 1, block, sizeof out, 7, 0, 0, "");
    receipt("4,074 bytes", 0, 1, filled(OVER, 4074), sizeof out, 6, 0, 0, "");
    receipt("an OTC, and tags 3, 2 and 255", 0, 1, OWN OTC "0000FBFE" "C01018" TAG "03" TAG "02" TAG "FF", BLOCK_MAX, 1, 1, 2, "");
    receipt("tags 7 and 7, a byte too little", 4, 1, OWN "C01010" TAG "07" TAG "07", 13, 7, 0, 0, "");
    receipt("tags 7 and 7, and a community that is no tag", 0, 1, OWN "C01018" TAG "07" OTHER TAG "07", BLOCK_MAX, 0, 18, 2,
            OWN "C01008" OTHER);
    receipt("no ORIGIN", 4, 1, "400200", BLOCK_MAX, 3, 3, 0, "");
    receipt("mode 4", 4, 4, PATH, BLOCK_MAX, 5, 0, 0, "");
    one_owner();

    origin("P6, 10.0.16.0/20", 20, 0x0A001000, vrp, BY_64500, 0, 0);
    origin("P7, 10.0.16.0/21", 21, 0x0A001000, vrp, BY_64500, 0, 2);
    origin("P8, 10.1.0.0/20", 20, 0x0A010000, vrp, BY_64500, 0, 1);
    origin("P9, a final set", 20, 0x0A001000, vrp, FINAL_SET, 0, 2);
    origin("an empty path", 20, 0x0A001000, vrp, OWN, 0, 0);
    origin("4,096 VRPs", 20, 0x0A001000, text("", "0A000000101400000000", 4095, vrp), BY_64500, 0, 0);
    origin("4,097 VRPs", 20, 0x0A001000, text("", vrp, 4097, ""), BY_64500, 6, 0);
    origin("a table of 11 bytes", 20, 0x0A001000, text(vrp, "00", 1, ""), BY_64500, 6, 0);
    origin("the second VRP bad", 20, 0x0A001000, text(vrp, "0A00000010210000FBF4", 2, ""), BY_64500, 9, 1);
    origin("prefix length 33", 33, 0x0A001000, vrp, BY_64500, 5, 0);
    origin("no AS_PATH", 20, 0x0A001000, vrp, "40010100", 3, 4);

    origin6("2001:db8:1::/48", 48, "20010DB8000100000000000000000000", vrp6, BY_64500, 0, 0);
    origin6("2001:db8:1::/49", 49, "20010DB8000100000000000000000000", vrp6, BY_64500, 0, 2);
    origin6("2001:db9::/48", 48, "20010DB9000000000000000000000000", vrp6, BY_64500, 0, 1);
    origin6("a final set", 48, "20010DB8000100000000000000000000", vrp6, FINAL_SET, 0, 2);
    origin6("an empty path", 48, "20010DB8000100000000000000000000", vrp6, OWN, 0, 0);
    origin6("128 bits agree", 128, mapped, text(mapped, "8080", 1, "0000FBF4"), BY_64500, 0, 0);
    origin6("bit 128 differs", 128, mapped, "00000000000000000000FFFF0A001001" "80800000FBF4", BY_64500, 0, 1);
    origin6("bit 64 differs", 64, "20010DB8000000000000000000000000", "20010DB8000000010000000000000000" "40400000FBF4",
            BY_64500, 0, 1);
    origin6("bit 65 differs, length 64", 128, mapped, "00000000000000008000FFFF0A001000" "40800000FBF4", BY_64500, 0, 0);
    origin6("4,096 VRPs", 48, "20010DB8000100000000000000000000",
            text("", "20010DB8000000000000000000000000" "203000000000", 4095, vrp6), BY_64500, 0, 0);
    origin6("4,097 VRPs", 48, "20010DB8000100000000000000000000", text("", vrp6, 4097, ""), BY_64500, 6, 0);
    origin6("a table of 23 bytes", 48, mapped, text(vrp6, "00", 1, ""), BY_64500, 6, 0);
    origin6("the second VRP bad", 48, mapped, text(vrp6, "20010DB8000000000000000000000000" "20810000FBF4", 2, ""), BY_64500, 9, 1);
    origin6("prefix length 129", 129, mapped, vrp6, BY_64500, 5, 0);
    origin6("no AS_PATH", 48, mapped, vrp6, "40010100", 3, 4);

    tag("P10, tags 0 and 7", OWN "C01010" TAG "00" TAG "07", 0, 0, 1);
    tag("tags 2 and 1", OWN "C01010" TAG "02" TAG "01", 0, 2, 0);
    tag("tags 3, 2 and 255", OWN "C01018" TAG "03" TAG "02" TAG "FF", 0, 2, 2);
    tag("no tag", OWN, 0, 3, 0);
    tag("communities of 0 bytes", OWN "C01000", 3, 6, 0);
    tag("4,074 bytes", filled(OVER, 4074), 6, 0, 0);

    choosing("the shortest path", 1, 9, text(path, own, 1, with_otc), 0, 1, 2);
    choosing("mode 2 removes the invalid", 2, 9, text(path, own, 1, with_otc), 0, 0, 1);
    choosing("mode 0 removes the invalid", 0, 9, text(path, own, 1, with_otc), 0, 0, 1);
    choosing("mode 0, and only the invalid", 0, 9, own, 11, 0, 0);
    choosing("the client's own route removed", 1, 0x0A000002, text(path, own, 1, with_otc), 0, 0, 1);
    choosing("64 candidates", 3, 9, text("", path, 64, ""), 0, 0, 64);
    choosing("65 candidates", 3, 9, text("", path, 65, ""), 6, 0, 0);
    choosing("a table of 18 bytes", 0, 9, text(path, "00", 1, ""), 6, 0, 0);
    choosing("the second outside the buffer", 0, 9, text(path, outside, 1, own), 10, 1, 0);
    choosing("only a block with an OTC", 0, 9, with_otc, 11, 0, 0);
    choosing("mode 4", 4, 9, path, 5, 0, 0);

    comparing("the shorter path", PATH, OWN, 0, 0, 1);
    comparing("the lower identifier", OWN, OWN, 3, 0, 0);
    comparing("the first malformed", "400200", OWN, 0, 10, 0);
    comparing("state 4 of the second", PATH, OWN, 4, 10, 1);

    printf("%u passed, %u failed\n", passed, failed);
    return failed != 0;
}
