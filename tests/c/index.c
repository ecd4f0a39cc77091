/*
 * The index of bgp_policy.h, built, grown and looked up in, of both families: the answer, the numbers beside it, the memory that a
 * call leaves, and that the bytes handed in stay. Prints a line for each check, last 'N passed, M failed'; the status is 0 where none
 * failed.
 */
#include "checks.h"
#include <bgp_policy.h>

#define ROOM 15000      /* enough for 4,096 VRPs of length 0 */
#define OTHER_MEMORY 99 /* no answer: the memory is not as the answer says */

static uint32_t memory[ROOM], old[ROOM];

/* Whether the memory, from one of its numbers on, is as it was before the call. */
static int stays(size_t from)
{
    return memcmp(memory + from, old + from, sizeof memory - from * sizeof *memory) == 0;
}

static int zeros(size_t length)
{
    size_t i;
    for (i = 0; i < length; i++)
        if (memory[i] != 0)
            return 0;
    return 1;
}

/*
 * The answer of a call, where the numbers lent are as it says (zeros after a build without room, else kept by a refusal) and none past
 * them is written.
 */
static unsigned judged(unsigned answer, size_t lent, int build)
{
    int ok = stays(lent) && (answer == 0 || (build && answer == 7 ? zeros(lent) : stays(0)));
    return ok ? answer : OTHER_MEMORY;
}

/* A build in a memory that holds other numbers. */
static void build(int family, const char *name, const char *table, size_t lent, unsigned want, size_t want_beside)
{
    size_t n = hand(0, table);
    unsigned answer;
    memset(memory, MARK, sizeof memory);
    memcpy(old, memory, sizeof memory);
    answer = family == 4 ? bgp_index_build(in[0], n, memory, lent, &beside) : bgp_index_build6(in[0], n, memory, lent, &beside);
    check(family == 4 ? "bgp_index_build" : "bgp_index_build6", name, judged(answer, lent, 1), want, want_beside, UNSET, "");
}

/* An insertion in the memory as the last call left it. */
static void insert(int family, const char *name, const char *record, size_t lent, size_t records, size_t nodes,
                   unsigned want, size_t want_beside)
{
    size_t n = hand(0, record);
    unsigned answer;
    memcpy(old, memory, sizeof memory);
    answer = family == 4 ? bgp_index_insert(in[0], n, memory, lent, records, nodes, &beside)
                         : bgp_index_insert6(in[0], n, memory, lent, records, nodes, &beside);
    check(family == 4 ? "bgp_index_insert" : "bgp_index_insert6", name, judged(answer, lent, 0), want, want_beside, UNSET, "");
}

/* A look-up in the memory as the last call left it; it writes nothing there. */
static void look_up(const char *name, size_t lent, uint8_t length, uint32_t prefix, uint32_t origin,
                    unsigned want, size_t want_beside, size_t want_visited)
{
    unsigned answer;
    hand(0, "");
    memcpy(old, memory, sizeof memory);
    answer = bgp_index_look_up(memory, lent, length, prefix, origin, &beside, &left);
    check("bgp_index_look_up", name, stays(0) ? answer : OTHER_MEMORY, want, want_beside, want_visited, "");
}

static void look_up6(const char *name, size_t lent, uint8_t length, uint64_t high, uint64_t low, uint32_t origin,
                     unsigned want, size_t want_beside, size_t want_visited)
{
    unsigned answer;
    hand(0, "");
    memcpy(old, memory, sizeof memory);
    answer = bgp_index_look_up6(memory, lent, length, high, low, origin, &beside, &left);
    check("bgp_index_look_up6", name, stays(0) ? answer : OTHER_MEMORY, want, want_beside, want_visited, "");
}

static void of_ipv4(void)
{
    static const char vrp[] = "0A00000010140000FBF4";  /* 10.0.0.0/16, maximum 20, AS 64500 */
    static const char less[] = "0A01000010180000FBFE"; /* 10.1.0.0/16, maximum 24, AS 64510: one node more */
    static const char bad[] = "0A00000010210000FBF4";  /* maximum 33 */

    build(4, "no VRP, no node lent", "", 2, 7, 0);
    build(4, "no VRP", "", 3, 0, 1);
    look_up("no VRP", 3, 32, 0x0A001000, 64500, 0, 1, 1);
    build(4, "a node too few", vrp, 53, 7, 0);
    look_up("an all-zero memory", 53, 0, 0, 64500, 0, 1, 1);
    build(4, "just enough", vrp, 54, 0, 17);
    insert(4, "no room", less, 54, 1, 17, 7, 0);
    look_up("P6, 10.0.16.0/20", 54, 20, 0x0A001000, 64500, 0, 0, 17);
    look_up("P7, 10.0.16.0/21", 54, 21, 0x0A001000, 64500, 0, 2, 17);
    look_up("P8, 10.1.0.0/20", 54, 20, 0x0A010000, 64500, 0, 1, 16);
    look_up("P9, no origin", 54, 20, 0x0A001000, 0, 0, 2, 17);
    look_up("prefix length 33", 54, 33, 0x0A001000, 64500, 5, 0, 0);
    build(4, "room for two", vrp, 60, 0, 17);
    insert(4, "the second", less, 60, 1, 17, 0, 18);
    look_up("10.1.0.0/20 by the second", 60, 20, 0x0A010000, 64510, 0, 0, 17);
    insert(4, "a bad third", bad, 60, 2, 18, 9, 2);
    insert(4, "a third of 9 bytes", "0A0000001014000000", 60, 2, 18, 6, 0);
    look_up("10.0.16.0/20 by the first", 60, 20, 0x0A001000, 64500, 0, 0, 17);
    build(4, "the second VRP bad", text(vrp, bad, 2, ""), 900, 9, 1);
    build(4, "a table of 11 bytes", text(vrp, "00", 1, ""), 900, 6, 0);
    build(4, "4,097 VRPs", filled("", 40970), ROOM, 6, 0);
    build(4, "4,096 VRPs", filled("", 40960), ROOM, 0, 1);
    insert(4, "one VRP too many", vrp, ROOM, 4096, 1, 6, 0);
    look_up("0.0.0.0/0 of AS 0", ROOM, 0, 0, 0, 0, 2, 1);
}

static void of_ipv6(void)
{
    static const char vrp[] = "20010DB8000000000000000000000000" "20300000FBF4";  /* 2001:db8::/32, maximum 48, AS 64500 */
    static const char full[] = "20010DB8000000000000000000000001" "80800000FBFE"; /* 2001:db8::1/128, AS 64510 */
    static const char bad[] = "20010DB8000000000000000000000000" "20810000FBF4";  /* maximum 129 */
    const uint64_t high = 0x20010DB800000000;

    build(6, "no VRP, no node lent", "", 2, 7, 0);
    build(6, "a node too few", vrp, 101, 7, 0);
    build(6, "just enough", vrp, 102, 0, 33);
    look_up6("2001:db8:1::/48", 102, 48, high | 0x10000, 0, 64500, 0, 0, 33);
    look_up6("2001:db8:1::/49", 102, 49, high | 0x10000, 0, 64500, 0, 2, 33);
    look_up6("2001:db9::/48", 102, 48, high | 0x100000000, 0, 64500, 0, 1, 32);
    look_up6("prefix length 129", 102, 129, high, 0, 64500, 5, 0, 0);
    insert(6, "no room", full, 102, 1, 33, 7, 0);
    build(6, "room for two", vrp, 393, 0, 33);
    insert(6, "the second", full, 393, 1, 33, 0, 129);
    look_up6("2001:db8::1/128", 393, 128, high, 1, 64510, 0, 0, 129);
    look_up6("2001:db8::/128, the last bit differs", 393, 128, high, 0, 64510, 0, 2, 128);
    look_up6("2001:db8::/64, past the shorter VRP", 393, 64, high, 1, 64510, 0, 2, 65);
    insert(6, "a bad third", bad, 393, 2, 129, 9, 2);
    insert(6, "a third of 10 bytes", "0A00000010140000FBF4", 393, 2, 129, 6, 0);
    build(6, "the second VRP bad", text(vrp, bad, 2, ""), 900, 9, 1);
    build(6, "a table of 23 bytes", text(vrp, "00", 1, ""), 900, 6, 0);
    build(6, "4,097 VRPs", filled("", 90134), ROOM, 6, 0);
    build(6, "4,096 VRPs", filled("", 90112), ROOM, 0, 1);
    insert(6, "one VRP too many", vrp, ROOM, 4096, 1, 6, 0);
}

int main(void)
{
    of_ipv4();
    of_ipv6();
    printf("%u passed, %u failed\n", passed, failed);
    return failed != 0;
}
