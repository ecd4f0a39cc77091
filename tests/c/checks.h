/*
 * What the checks of every.c, send.c, check.c and index.c share: the bytes handed in and the output buffer, attribute blocks and other
 * texts of hex digits, and the check of a call.
 */
#include <stdint.h>
#include <stdio.h>
#include <string.h>

#define BLOCK_MAX 4073
#define TABLE_MAX 90134 /* one IPv6 VRP too many */
#define MARK 0xA5       /* in every byte that no call has written */
#define UNSET ((size_t)-1)

/* Attribute blocks, in hex */
#define OWN "40010100400200"                   /* ORIGIN and an empty AS_PATH */
#define PATH "4001010040020602010000FBFE"      /* the same with the path 64510 */
#define BY_64500 "4001010040020602010000FBF4"  /* with the path 64500 */
#define FINAL_SET "4001010040020601010000FBF4" /* with the set of 64500 */
#define OTC "C02304"                           /* the header of an OTC */
#define PARTIAL_OTC "E02304"                   /* of one that its originator did not attach */
#define TAG "43000000000000"                   /* a tag but for its state */
#define OTHER "0002000000000000"               /* a community that is no tag */
#define FULL OWN "D0630FDE"                    /* with zeros after it: 4,073 bytes */
#define OVER OWN "D0630FDF"                    /* 4,074 */

static uint8_t in[2][TABLE_MAX], kept[2][TABLE_MAX]; /* what is handed in, and a copy */
static uint8_t out[BLOCK_MAX + 16], after[BLOCK_MAX + 16];
static size_t beside, left; /* `left` also takes the other number that receipt, the tag reader and a look-up tell */
static size_t handed_on, want_state; /* the state that receipt hands on, and the one wanted */
static unsigned passed, failed;

/* The bytes that hex digits spell go to `to`; gives how many there are. */
static size_t spell(const char *digits, uint8_t *to)
{
    static const char all[] = "0123456789ABCDEF";
    size_t i, length = strlen(digits) / 2;
    for (i = 0; i < length; i++)
        to[i] = (uint8_t)((strchr(all, digits[2 * i]) - all) * 16 + (strchr(all, digits[2 * i + 1]) - all));
    return length;
}

/* The digits of `head`, `unit` as often as said, and `tail`; the two last texts stand. */
static const char *text(const char *head, const char *unit, size_t times, const char *tail)
{
    static char texts[2][2 * TABLE_MAX + 1];
    static int turn;
    char *end = texts[turn = !turn];
    end += strlen(strcpy(end, head));
    while (times-- > 0)
        end += strlen(strcpy(end, unit));
    strcpy(end, tail);
    return texts[turn];
}

/* The digits of `head`, and zeros up to so many bytes. */
static const char *filled(const char *head, size_t length)
{
    return text(head, "00", length - strlen(head) / 2, "");
}

/* Hands in one of the two inputs, and makes the rest ready for a call. */
static size_t hand(int which, const char *digits)
{
    size_t length;
    memset(in[which], MARK, TABLE_MAX);
    length = spell(digits, in[which]);
    memcpy(kept[which], in[which], TABLE_MAX);
    memset(out, MARK, sizeof out);
    beside = left = handed_on = want_state = UNSET;
    return length;
}

/* One check, of what the call just made has given and stored. */
static void check(const char *function, const char *name, unsigned answer,
                  unsigned want, size_t want_beside, size_t want_left, const char *stored)
{
    int ok;
    memset(after, MARK, sizeof after);
    spell(stored, after);
    ok = answer == want && beside == want_beside && left == want_left && handed_on == want_state &&
         memcmp(out, after, sizeof out) == 0 && memcmp(in, kept, sizeof in) == 0;
    printf("%s: %s: %s: %u beside %lu\n", ok ? "ok" : "FAILED", function, name, answer, (unsigned long)beside);
    if (ok) {
        passed++;
    } else {
        printf("  wanted %u beside %lu, and %u bytes stored\n", want, (unsigned long)want_beside, (unsigned)strlen(stored) / 2);
        failed++;
    }
}
