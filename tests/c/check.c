/*
 * The check of a block that another make of router sent, of bgp_policy.h, on cases of the documents: the answer, the number beside
 * it, and that the bytes handed in stay and nothing is stored. Prints a line for each check, last 'N passed, M failed'; the status
 * is 0 where none failed.
 */
#include "checks.h"
#include <bgp_policy.h>

#define YES 0, 1
#define NO 0, 0

/* Checking at AS 64500 of what was sent to AS 64510; `one` is 1 under one administration. */
static void owned_check(const char *name, uint8_t role, uint8_t mode, uint8_t one, uint8_t source, uint8_t state,
                        const char *block, const char *sent, unsigned want, size_t want_beside)
{
    size_t n = hand(0, block), m = hand(1, sent);
    check("bgp_check_sent", name, bgp_check_sent(64500, 64510, role, mode, one, source, state, in[0], n, in[1], m, &beside),
          want, want_beside, UNSET, "");
}

/* The same between two administrations, in mode 1. */
static void checking(const char *name, uint8_t role, uint8_t source, uint8_t state, const char *block, const char *sent,
                     unsigned want, size_t want_beside)
{
    owned_check(name, role, 1, 0, source, state, block, sent, want, want_beside);
}

/* What bgp_send_write stores for the same input is allowed. */
static void own_block(const char *name, uint8_t role, uint8_t source, uint8_t state, const char *block)
{
    static uint8_t own[BLOCK_MAX];
    size_t n = hand(0, block), length;
    unsigned answer = bgp_send_write(64500, 64510, role, 1, 0, source, state, in[0], n, own, sizeof own, &length);
    if (answer == 0)
        answer = bgp_check_sent(64500, 64510, role, 1, 0, source, state, in[0], n, own, length, &beside);
    check("bgp_send_write and bgp_check_sent", name, answer, YES, UNSET, "");
}

/* The two blocks may overlap: here they are one, of a route that goes out as it is, and a part of it. */
static void one_memory(const char *name, size_t length, unsigned want, size_t want_beside)
{
    size_t n = hand(0, PATH);
    check("bgp_check_sent", name, bgp_check_sent(64500, 64510, 3, 1, 0, 255, 3, in[0], n, in[0], length, &beside),
          want, want_beside, UNSET, "");
}

/* A learned route to a Peer gets an OTC that begins E0, where BIRD, FRR and OpenBGPD write C0; of an own route it is C0. */
static void flags(void)
{
    checking("a learned route, E0", 4, 3, 3, OWN, OWN PARTIAL_OTC "0000FBF4", YES);
    checking("a learned route, C0", 4, 3, 3, OWN, OWN OTC "0000FBF4", NO);
    checking("an own route, E0", 4, 255, 3, OWN, OWN PARTIAL_OTC "0000FBF4", NO);
    checking("another Optional bit", 4, 255, 3, OWN, OWN "4023040000FBF4", NO);
    checking("another low bit", 4, 255, 3, OWN, OWN "C123040000FBF4", NO);
    checking("a two-byte length", 4, 255, 3, OWN, OWN "D02300040000FBF4", YES);
    checking("two-byte lengths of all", 4, 255, 3, OWN, "5001000100" "50020000" "D02300040000FBF4", YES);
    checking("one-byte lengths of all", 3, 255, 3, "5001000100" "50020000", OWN, YES);
}

/* Attributes in any sequence; as many as ours, with our types and values. */
static void attributes(void)
{
    checking("another sequence", 4, 255, 3, OWN, OTC "0000FBF4" "400200" "40010100", YES);
    checking("another sequence and form", 4, 255, 3, OWN, "400200" "D02300040000FBF4" "5001000100", YES);
    checking("no OTC", 4, 255, 3, OWN, OWN, NO);
    checking("an OTC of another AS", 4, 255, 3, OWN, OWN OTC "0000FBFE", NO);
    checking("an OTC that we would not add", 3, 255, 3, OWN, OWN OTC "0000FBF4", NO);
    checking("type 36", 4, 255, 3, OWN, OWN "C024040000FBF4", NO);
    checking("one attribute more", 4, 255, 3, OWN, OWN OTC "0000FBF4" "800404" "00000000", NO);
    checking("an OTC twice", 4, 255, 3, OWN, OWN OTC "0000FBF4" OTC "0000FBF4", NO);
    checking("another ORIGIN", 4, 255, 3, OWN, "40010101400200" OTC "0000FBF4", NO);
    checking("a longer path", 3, 255, 3, OWN, PATH, NO);
    checking("the tag last", 1, 255, 1, OWN "C01008" OTHER, OWN "C01010" OTHER TAG "01" OTC "0000FBF4", YES);
    checking("the tag first", 1, 255, 1, OWN "C01008" OTHER, OWN "C01010" TAG "01" OTHER OTC "0000FBF4", NO);
    checking("no tag", 1, 255, 1, OWN "C01008" OTHER, OWN "C01008" OTHER OTC "0000FBF4", NO);
    checking("a tag of another state", 1, 255, 1, OWN, OWN "C01008" TAG "02" OTC "0000FBF4", NO);
    checking("a tag kept that goes", 3, 255, 3, OWN "C01010" TAG "07" OTHER, OWN "C01010" TAG "07" OTHER, NO);
    checking("that tag dropped", 3, 255, 3, OWN "C01010" TAG "07" OTHER, OWN "C01008" OTHER, YES);
    checking("31 communities and a tag", 1, 255, 1, text(OWN "C010F8", OTHER, 31, ""),
             text(OWN "D0100100", OTHER, 31, TAG "01" OTC "0000FBF4"), YES);
}

/* A sent block that cannot be read, and any for a route that is withheld, is a no. */
static void nos(void)
{
    checking("nothing sent", 4, 255, 3, OWN, "", NO);
    checking("a byte too few", 4, 255, 3, OWN, OWN OTC "0000FB", NO);
    checking("a byte too many", 4, 255, 3, OWN, OWN OTC "0000FBF4" "00", NO);
    checking("no ORIGIN sent", 4, 255, 3, OWN, "400200" OTC "0000FBF4", NO);
    checking("withheld by rule 1", 4, 255, 3, OWN OTC "00000001", OWN OTC "00000001", NO);
    checking("withheld by rule 2", 4, 0, 3, OWN, OWN PARTIAL_OTC "0000FBF4", NO);
    checking("withheld by rule 2, nothing sent", 4, 0, 3, OWN, "", NO);
    checking("withheld by rule 2, unreadable", 4, 0, 3, OWN, "40", NO);
    owned_check("withheld by rule 3, mode 2", 1, 2, 0, 255, 2, OWN, OWN "C01008" TAG "02" OTC "0000FBF4", NO);
    owned_check("withheld by rule 3, mode 0", 1, 0, 0, 255, 2, OWN, OWN "C01008" TAG "02" OTC "0000FBF4", NO);
    checking("invalid in mode 1", 1, 255, 2, OWN, OWN "C01008" TAG "02" OTC "0000FBF4", YES);
    owned_check("one owner, the tag to a Provider", 3, 1, 1, 255, 0, OWN, OWN "C01008" TAG "00", YES);
    owned_check("one owner, no tag to a Provider", 3, 1, 1, 255, 0, OWN, OWN, NO);
}

/* 5, 6 of either block, 3 of the block handed in, the no of a route withheld, 7, and only then yes or no. */
static void refusals(void)
{
    const char *full = filled(FULL, 4073);
    checking("4,073 bytes each", 3, 255, 3, full, full, YES);
    checking("4,073 bytes and an OTC", 4, 255, 3, full, full, 7, 0);
    checking("4,073 bytes and an OTC, nothing sent", 4, 255, 3, full, "", 7, 0);
    checking("4,073 bytes and an OTC, unreadable", 4, 255, 3, full, "40", 7, 0);
    checking("4,073 bytes, withheld", 4, 0, 3, full, full, NO);
    checking("4,073 bytes in a longer form", 3, 255, 3, full, filled("5001000100" "400200" "D0630FDE", 4074), 6, 0);
    checking("4,074 bytes handed in", 3, 255, 3, filled(OVER, 4074), OWN, 6, 0);
    checking("4,074 bytes sent", 3, 255, 3, OWN, filled(OVER, 4074), 6, 0);
    checking("4,074 bytes sent, withheld", 4, 0, 3, OWN, filled(OVER, 4074), 6, 0);
    checking("4,074 bytes sent, no ORIGIN", 4, 255, 3, "400200", filled(OVER, 4074), 6, 0);
    checking("no ORIGIN", 4, 255, 3, "400200", "400200", 3, 3);
    checking("an OTC of 3 bytes, withheld", 4, 0, 3, OWN "C02303000001", OWN, 3, 5);
    checking("source 5", 4, 5, 3, OWN, OWN, 5, 0);
    checking("state 4, 4,074 bytes sent", 4, 255, 4, OWN, filled(OVER, 4074), 5, 0);
    owned_check("one owner at a route server", 1, 1, 1, 255, 0, OWN, OWN, 5, 0);
    owned_check("mode 4, no ORIGIN", 4, 4, 0, 255, 3, "400200", OWN, 5, 0);
}

int main(void)
{
    /* Roles: 0 Provider, 1 RS, 2 RS-Client, 3 Customer, 4 Peer; the role given is this end's */
    own_block("P4, an own route to a Peer", 4, 255, 3, OWN);
    own_block("a Customer's route to a Peer", 4, 3, 3, PATH);
    own_block("an RS-Client's route to another, tags 7 and 0 go", 1, 2, 1, OWN "C01018" TAG "07" OTHER TAG "00");
    own_block("31 communities and a tag", 1, 2, 1, text(OWN "C010F8", OTHER, 31, ""));
    one_memory("one memory", 13, YES);
    one_memory("one memory, a byte less", 12, NO);
    flags();
    attributes();
    nos();
    refusals();

    printf("%u passed, %u failed\n", passed, failed);
    return failed != 0;
}
