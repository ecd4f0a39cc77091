/*
 * Both functions of sending of bgp_policy.h, on cases of the documents: the answer, the number beside it and every byte of the
 * buffer, and that the bytes handed in stay; and the two as a caller uses them. Prints a line for each check, last 'N passed, M
 * failed'; the status is 0 where none failed.
 */
#include "checks.h"
#include <bgp_policy.h>
#include <stdlib.h>

#define OTHER_LENGTH 99 /* no answer: the length written is not the one that was told */

/* Sending by AS 64500 to AS 64510, the size; `one` is 1 under one administration. */
static void size(const char *name, uint8_t role, uint8_t mode, uint8_t one, uint8_t source, uint8_t state, const char *block,
                 unsigned want, size_t want_beside)
{
    size_t n = hand(0, block);
    check("bgp_send_size", name, bgp_send_size(64500, 64510, role, mode, one, source, state, in[0], n, &beside),
          want, want_beside, UNSET, "");
}

/* The writing, in `room` bytes. On answer 0 `stored` is the new block, else "". */
static void writing(const char *name, uint8_t role, uint8_t mode, uint8_t one, uint8_t source, uint8_t state, const char *block,
                    size_t room, unsigned want, size_t want_beside, const char *stored)
{
    size_t n = hand(0, block);
    char label[100];
    snprintf(label, sizeof label, "%s, in %lu bytes", name, (unsigned long)room);
    check("bgp_send_write", label, bgp_send_write(64500, 64510, role, mode, one, source, state, in[0], n, out, room, &beside),
          want, want_beside, UNSET, stored);
}

/* Both, which tell the same: a refusal in every buffer, a block in one that has just room; a byte less is too little. */
static void owned_sending(const char *name, uint8_t role, uint8_t mode, uint8_t one, uint8_t source, uint8_t state,
                          const char *block, unsigned want, size_t want_beside, const char *stored)
{
    size(name, role, mode, one, source, state, block, want, want_beside);
    writing(name, role, mode, one, source, state, block, sizeof out, want, want_beside, stored);
    if (want == 0) {
        writing(name, role, mode, one, source, state, block, want_beside, 0, want_beside, stored);
        writing(name, role, mode, one, source, state, block, want_beside - 1, 7, 0, "");
    } else {
        writing(name, role, mode, one, source, state, block, 0, want, want_beside, "");
    }
}

/* The same between two administrations. */
static void sending(const char *name, uint8_t role, uint8_t mode, uint8_t source, uint8_t state, const char *block,
                    unsigned want, size_t want_beside, const char *stored)
{
    owned_sending(name, role, mode, 0, source, state, block, want, want_beside, stored);
}

/* As a caller does it, in mode 1: the length first, then a buffer of so many bytes, as the header shows. */
static void asking(const char *name, uint8_t role, uint8_t source, uint8_t state, const char *block,
                   unsigned want, size_t want_beside, const char *stored)
{
    size_t n = hand(0, block), length, written;
    unsigned answer = bgp_send_size(64500, 64510, role, 1, 0, source, state, in[0], n, &length);
    beside = length;
    if (answer == 0) {
        uint8_t *room = (uint8_t *)malloc(length);
        if (room == NULL)
            abort();
        answer = bgp_send_write(64500, 64510, role, 1, 0, source, state, in[0], n, room, length, &written);
        if (written != length)
            answer = OTHER_LENGTH;
        memcpy(out, room, length);
        free(room);
    }
    check("bgp_send_size and bgp_send_write", name, answer, want, want_beside, UNSET, stored);
}

/* Under one administration sending tags towards any role. */
static void one_owner(void)
{
    owned_sending("one owner, valid, to a Provider", 3, 1, 1, 255, 0, OWN, 0, 18, OWN "C01008" TAG "00");
    owned_sending("one owner, invalid, to a Peer, mode 2", 4, 2, 1, 3, 2, OWN "C01008" TAG "00", 0, 25,
                  OWN "E01008" TAG "02" PARTIAL_OTC "0000FBF4");
    owned_sending("one owner, invalid, to a Customer, mode 0", 0, 0, 1, 255, 2, OWN, 0, 25, OWN "C01008" TAG "02" OTC "0000FBF4");
    owned_sending("one owner, not found, to an RS", 2, 1, 1, 3, 1, OWN "C01010" OTHER TAG "07", 0, 26, OWN "C01010" OTHER TAG "01");
    owned_sending("one owner, unavailable, to a Peer", 4, 1, 1, 255, 3, OWN "C01008" TAG "00", 0, 14, OWN OTC "0000FBF4");
    owned_sending("one owner, from a Provider to a Peer", 4, 1, 1, 0, 0, OWN, 2, 2, "");
    owned_sending("one owner at a route server", 1, 1, 1, 255, 0, OWN, 5, 0, "");
    owned_sending("byte 255", 4, 1, 255, 255, 0, OWN, 5, 0, "");
}

/* Results of 4,073 bytes and more: no room in any buffer for these, unless the route is withheld. */
static void limits(void)
{
    const char *block = filled(FULL, 4073);
    sending("4,073 bytes to a Provider", 3, 1, 255, 3, block, 0, 4073, block);
    sending("4,073 bytes and an OTC", 4, 1, 255, 3, block, 7, 0, "");
    sending("4,073 bytes and a tag and an OTC", 1, 1, 255, 0, block, 7, 0, "");
    sending("4,073 bytes from a Provider to a Peer", 4, 1, 0, 3, block, 2, 2, "");
    sending("4,073 bytes, mode 2, invalid, to an RS-Client", 1, 2, 255, 2, block, 2, 3, "");
    block = filled(OWN "D0630FD7", 4066);
    sending("4,066 bytes and an OTC", 4, 1, 255, 3, block, 0, 4073, filled(OWN OTC "0000FBF4" "D0630FD7", 4073));
    sending("4,067 bytes and an OTC", 4, 1, 255, 3, filled(OWN "D0630FD8", 4067), 7, 0, "");
    sending("4,074 bytes", 3, 1, 255, 3, filled(OVER, 4074), 6, 0, "");
    sending("4,074 bytes from a Provider to a Peer", 4, 1, 0, 3, filled(OVER, 4074), 6, 0, "");
}

int main(void)
{
    /* Roles: 0 Provider, 1 RS, 2 RS-Client, 3 Customer, 4 Peer; the role given is this end's */
    const char *block;

    sending("P4, an own route to a Peer", 4, 1, 255, 3, OWN, 0, 14, OWN OTC "0000FBF4");
    sending("P5, from a Provider to a Peer", 4, 1, 0, 3, OWN, 2, 2, "");
    sending("an OTC to a Peer", 4, 1, 255, 3, OWN OTC "00000001", 2, 1, "");
    sending("mode 2, invalid, to an RS-Client", 1, 2, 2, 2, OWN, 2, 3, "");
    sending("mode 0, invalid, to an RS-Client", 1, 0, 2, 2, OWN, 2, 3, "");
    sending("mode 0, not found, to an RS-Client", 1, 0, 255, 1, OWN, 0, 25, OWN "C01008" TAG "01" OTC "0000FBF4");
    sending("mode 0, invalid, to a Peer", 4, 0, 255, 2, OWN, 0, 14, OWN OTC "0000FBF4");
    sending("mode 1, invalid, to an RS-Client", 1, 1, 2, 2, OWN, 0, 25, OWN "E01008" TAG "02" PARTIAL_OTC "0000FBF4");
    sending("the same of an own route", 1, 1, 255, 2, OWN, 0, 25, OWN "C01008" TAG "02" OTC "0000FBF4");
    sending("a Customer's route to a Peer", 4, 1, 3, 3, OWN, 0, 14, OWN PARTIAL_OTC "0000FBF4");
    sending("tags 7 and 0 go, another stays", 3, 1, 255, 3, OWN "C01018" TAG "07" OTHER TAG "00", 0, 18, OWN "C01008" OTHER);
    sending("tags 7 and 0 alone go", 3, 1, 255, 3, OWN "C01010" TAG "07" TAG "00", 0, 7, OWN);
    block = text(OWN "C010F0", OTHER, 30, "");
    sending("30 communities and a tag", 1, 1, 2, 1, block, 0, 265,
            text(OWN "C010F8", OTHER, 30, TAG "01" PARTIAL_OTC "0000FBF4"));
    block = text(OWN "C010F8", OTHER, 31, "");
    sending("31 communities and a tag", 1, 1, 2, 1, block, 0, 274,
            text(OWN "D0100100", OTHER, 31, TAG "01" PARTIAL_OTC "0000FBF4"));
    block = text(OWN "E010F8", OTHER, 31, "");
    sending("31 in a partial attribute, own route", 1, 1, 255, 1, block, 0, 274,
            text(OWN "F0100100", OTHER, 31, TAG "01" OTC "0000FBF4"));
    sending("an OTC of 3 bytes", 4, 1, 255, 3, OWN "C02303000001", 3, 5, "");
    sending("source 5", 4, 1, 5, 3, OWN, 5, 0, "");
    sending("state 4", 4, 1, 255, 4, OWN, 5, 0, "");
    sending("source 5, 4,074 bytes", 4, 1, 5, 3, filled(OVER, 4074), 5, 0, "");
    limits();
    one_owner();

    asking("an own route to a Peer", 4, 255, 3, OWN, 0, 14, OWN OTC "0000FBF4");
    asking("an own route to an RS-Client", 1, 255, 0, OWN, 0, 25, OWN "C01008" TAG "00" OTC "0000FBF4");
    asking("from a Provider to a Peer", 4, 0, 3, OWN, 2, 2, "");

    printf("%u passed, %u failed\n", passed, failed);
    return failed != 0;
}
