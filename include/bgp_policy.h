/*
 * Routing policy for BGP, for C: opening of sessions under RFC 9234 roles, receipt and sending of their attribute blocks, the check
 * of a block that another make of router sent, the origin state of IPv4 and IPv6 unicast routes (RFC 6811), by a scan of the VRPs
 * or by an index over them, the state that a received tag tells (RFC 8097), and the choice of a route for a route-server client.
 * The functions are in libbgp_policy.a, which install.sh puts beside this file under a folder; as built it is
 * target/staticlib/libc_api.a.
 */
#ifndef BGP_POLICY_H
#define BGP_POLICY_H

#include <stddef.h>
#include <stdint.h>

/* The version of this interface; the pkg-config file has it too. */
#define BGP_POLICY_VERSION "0.9.0"

#ifdef __cplusplus
extern "C" {
#endif

/*
 * Arguments
 *
 * Of all functions
 * beside                where the number beside the answer goes
 *
 * Of opening, receipt, sending and checking
 * local_role            this end's role; the other end has its counterpart (0 with 3, 1 with 2, 4 with 4):
 *                       0 Provider, 1 RS (route server), 2 RS-Client, 3 Customer, 4 Peer
 *
 * Of opening
 * strict                1 where the other end must name its role, else 0
 * parameters,           the optional parameters of the other end's OPEN: where they begin, and how many bytes they have,
 * parameters_len        at most 255
 *
 * Of receipt, sending, checking and choosing
 * mode                  0 the house default, which is 2; 1 simple tagging; 2 drop invalid; 3 prioritise. Invalid routes are tagged
 *                       and none is dropped where a caller names 1
 *
 * Of receipt, sending and checking
 * local_as, remote_as   the two AS numbers of the session: not 0, and not equal
 * one_administration    1 where both ends are under one administration and tags cross between them, else 0, the default for EBGP
 *                       peers (RFC 8097 section 2). It may not be 1 where local_role is 1: a route server must strip tags
 *
 * Of receipt and bgp_send_write
 * out, out_len          the output buffer: where it begins, and how many bytes it has; 4,073 is always enough, and for
 *                       bgp_send_write the length that bgp_send_size tells
 *
 * Of receipt and received tag
 * thrown_out            where it goes how many tags of the block have a value above 2: such a tag is erroneous and tells no state
 *                       (RFC 8097 section 2, which wants it logged). Receipt tells it on answers 0 and 1, the received tag on
 *                       answer 0; on every other answer it is 0
 * state (of receipt)    where the greatest state goes that a tag kept tells, for a caller whose own is 3 for want of a VRP table;
 *                       3 where none is kept, so always with one_administration 0, and on every answer but 0
 *
 * Of sending and checking
 * source                255 for an own route, else the role (0 to 4) of the neighbour that the route was learned from
 * state                 the origin validation state: 0 valid, 1 not found, 2 invalid, 3 unavailable
 *
 * Of receipt, sending, checking, origin state and received tag
 * block, block_len      the attribute block: where it begins, and how many bytes it has, at most 4,073
 *
 * Of checking
 * sent, sent_len        the block that the other make sent: where it begins, and how many bytes it has, at most 4,073
 *
 * Of origin state, both functions
 * own_as                the AS that is the origin of a route with an empty path: not 0
 *
 * Of origin state of IPv4 routes
 * prefix_length         0 to 32
 * prefix                the route's prefix as a number, its first byte the highest; bits after the length do not count
 * table, table_len      VRPs of 10 bytes each: prefix 4, length, maximum length, ASN 4, high byte first; at most 4,096 of them
 *
 * Of origin state of IPv6 routes
 * prefix_length         0 to 128
 * prefix_high,          the route's prefix as two numbers, of its first eight bytes and of its last eight, in each the first
 * prefix_low            byte the highest; bits after the length do not count
 * table, table_len      VRPs of 22 bytes each: prefix 16, length, maximum length, ASN 4, high byte first; at most 4,096 of them
 *
 * Of choosing
 * client                the client's own address as a number
 * buffer, buffer_len    the bytes that the candidates' blocks are parts of
 * candidates,           17 bytes for each candidate, numbers high byte first: where its block begins in the buffer 4, how many
 * candidates_len        bytes the block has 4, state 1, the sender's identifier 4, the sender's address 4; at most 64 of them
 * left                  where it goes how many candidates were left after removal, 0 unless the answer is 0
 *
 * Of comparing two: for each its block, state (0 to 3), the sender's identifier and address
 *
 * Of the index (build, insertion, look-up): table, prefix_length and prefix as those of the origin state of its family
 * memory, memory_len    the memory that holds the index: where it begins, and how many 32-bit numbers it has; see below
 * record, record_len    the VRP to insert: where it begins, and how many bytes it has, 10 or of IPv6 22
 * records, nodes        how many VRPs the table has whose index the memory holds, and how many nodes that index
 * origin                the AS that originates the route; 0 for none, which matches no VRP
 * visited               where it goes how many nodes the look-up visited, 0 unless the answer is 0
 *
 * Settings of any value, parameters, tables, records and blocks of any bytes and buffers and memories of any length have an
 * answer. But every pointer must be usable (never NULL, also where the length is 0), out must not overlap block, memory must
 * not overlap table or record, and *beside, *thrown_out, *state, *left and *visited must lie in none of the bytes handed in or
 * out, nor be the same. Bytes that are only read, such as block and sent, may overlap.
 *
 * Answers, and what *beside becomes
 *
 *  0  done
 *       opening: the two ends agree                         the other end's role
 *       receipt, bgp_send_write: the new block is at the
 *       start of out                                        its length in bytes
 *       bgp_send_size: the route may go out                 the length in bytes of the block that goes
 *       checking: whether what was sent is allowed          1 for yes, 0 for no
 *       origin state, received tag                          the state: 0 valid, 1 not found, 2 invalid; of a tag also 3,
 *                                                           unavailable
 *       choosing, comparing two                             the index of the route, from 0
 *       build, insertion: the memory holds the index        how many nodes it has
 *       look-up                                             the state: 0 valid, 1 not found, 2 invalid
 *  1  ineligible, a leak (receipt only)                     the rule of receipt, 1 or 2
 *  2  withheld (sending only; in checking a no)             the rule of sending, 1, 2 or 3
 *  3  attributes malformed, treat as withdraw (receipt,
 *     sending, origin state, received tag; in checking
 *     those of block, while those of sent are a no)         the fault, 1 to 6
 *  4  session rejected, NOTIFICATION 2/11 (opening only)    0
 *  5  a setting is out of range (all but received tag,
 *     comparing two, build and insertion)                   0
 *  6  too long: parameters of more than 255 bytes, a block
 *     of more than 4,073 (in choosing 10; in checking
 *     also sent), a table of more than 4,096 VRPs or 64
 *     candidates; or a table whose length is no multiple of
 *     10 (IPv4 VRPs), of 22 (IPv6 VRPs) or of 17
 *     (candidates); or a record to insert that is not one
 *     VRP, or one VRP too many                              0
 *  7  no room: the result is longer than 4,073 (receipt and
 *     sending; in checking that of our own sending) or than
 *     out (receipt and bgp_send_write), or the memory has
 *     too few numbers for the index (build and insertion)   0
 *  8  OPEN parameters malformed (opening only)              0
 *  9  bad VRP record: its length above its maximum, or its
 *     maximum above 32, of IPv6 VRPs above 128 (origin
 *     state, build and insertion)                           the index of the first one, from 0; of one to insert
 *                                                           what it would have, which is records
 * 10  bad candidate: outside the buffer, more than 4,073
 *     bytes, state above 3, or malformed (choosing and
 *     comparing two)                                        the index of the first one, from 0
 * 11  no route to choose (choosing only)                    0
 *
 * Where several apply, opening gives the first of 5, 6, 8, 4, receipt and sending the first of 5, 6, 3, 1 or 2, 7, checking the
 * first of 5, 6, 3, the no of a route that is withheld, 7, and only then yes or no, origin state the first of 5, 6, 9, 3, choosing
 * the first of 5, 6, 10, 11, and build and insertion the first of 6, 9, 7.
 * Every call sets *beside, and *thrown_out, *state, *left or *visited where it takes them. Only answer 0 stores anything in out,
 * and then the bytes past the length in *beside stay as they were. Only answer 0 stores anything in memory, but for one exception:
 * a build with answer 7 leaves it all zeros.
 */

/* Opening: whether the role that the other end names agrees with this end's, and which role it has. */
uint8_t bgp_open(uint8_t local_role, uint8_t strict,
                 const uint8_t *parameters, size_t parameters_len,
                 size_t *beside);

/*
 * Receipt: what this end keeps of a block that came from the other end. A new OTC begins E0, with the Partial bit (RFC 4271
 * section 5). Every tag goes; with one_administration 1 only those above 2 go, and the others stay as they are. How many are
 * above 2, and so erroneous, is told with either, also of a route that is ineligible.
 */
uint8_t bgp_receive(uint32_t local_as, uint32_t remote_as, uint8_t local_role, uint8_t mode, uint8_t one_administration,
                    const uint8_t *block, size_t block_len,
                    uint8_t *out, size_t out_len, size_t *beside, size_t *thrown_out, size_t *state);

/*
 * Sending: what goes out to the other end. Every tag goes, and one of the state, unless that is 3, is added towards an RS-Client,
 * with one_administration 1 towards any role; an invalid route is then withheld in no mode, since the other end is no RS-Client.
 * A new OTC, and a new attribute for the tag, begin C0 on an own route, else E0, with the Partial bit (RFC 4271 section 5).
 * It has two functions, for a caller that must ask for room before it sends. With the arguments up to block_len the same in both:
 *
 *     size_t length, written;
 *     uint8_t answer = bgp_send_size(.., block, block_len, &length);
 *     if (answer == 0) {
 *         uint8_t *out = room(length);
 *         answer = bgp_send_write(.., block, block_len, out, length, &written); // 0, and written is length
 *     }
 */

/* The verdict, and the exact length of the block that goes out. Nothing is written. Answer 7 is for a length above 4,073 alone. */
uint8_t bgp_send_size(uint32_t local_as, uint32_t remote_as, uint8_t local_role, uint8_t mode, uint8_t one_administration,
                      uint8_t source, uint8_t state,
                      const uint8_t *block, size_t block_len,
                      size_t *beside);

/*
 * The block that goes out, written. Every check is made here too, so that no earlier call is needed. The answer and *beside are
 * those of bgp_send_size for the same arguments, but that after a 0 there the answer is 7 where out is shorter than that length.
 */
uint8_t bgp_send_write(uint32_t local_as, uint32_t remote_as, uint8_t local_role, uint8_t mode, uint8_t one_administration,
                       uint8_t source, uint8_t state,
                       const uint8_t *block, size_t block_len,
                       uint8_t *out, size_t out_len, size_t *beside);

/*
 * Checking: whether sent, the block that another make of router sent for the input that sending is handed up to block_len, is
 * allowed. It is exactly where bgp_send_size answers 0 and sent is readable, with none of the faults 1 to 6, and has the attributes
 * of the block that bgp_send_write stores: as many, and each of ours with the same type, the same value byte for byte and the same
 * flags but for the Extended Length bit (0x10). So they may stand in any sequence, with a length of one byte or of two, and what
 * bgp_send_write stores is always allowed. For a route that is withheld every block is a no, an empty one too. So is C0 where ours
 * is E0: BIRD, FRR and OpenBGPD begin a new OTC of a learned route with C0, without the Partial bit.
 */
uint8_t bgp_check_sent(uint32_t local_as, uint32_t remote_as, uint8_t local_role, uint8_t mode, uint8_t one_administration,
                       uint8_t source, uint8_t state,
                       const uint8_t *block, size_t block_len,
                       const uint8_t *sent, size_t sent_len,
                       size_t *beside);

/*
 * Origin state of an IPv4 route: whether the VRPs of a table say that the AS at the end of the block's AS_PATH may originate the
 * route.
 */
uint8_t bgp_origin_state(uint8_t prefix_length, uint32_t prefix, uint32_t own_as,
                         const uint8_t *table, size_t table_len,
                         const uint8_t *block, size_t block_len,
                         size_t *beside);

/*
 * Origin state of an IPv6 route, by a table of IPv6 VRPs. From a struct in6_addr prefix, on a machine of either byte order:
 *
 *     uint64_t prefix_high = 0, prefix_low = 0;
 *     for (int i = 0; i < 8; i++) {
 *         prefix_high = prefix_high << 8 | prefix.s6_addr[i];
 *         prefix_low = prefix_low << 8 | prefix.s6_addr[8 + i];
 *     }
 */
uint8_t bgp_origin_state6(uint8_t prefix_length, uint64_t prefix_high, uint64_t prefix_low, uint32_t own_as,
                          const uint8_t *table, size_t table_len,
                          const uint8_t *block, size_t block_len,
                          size_t *beside);

/* Received tag: the greatest state, up to 2, that the tags among the block's extended communities tell; how many are above 2. */
uint8_t bgp_received_tag(const uint8_t *block, size_t block_len, size_t *beside, size_t *thrown_out);

/*
 * Choosing: without blocks that have an OTC, the client's own routes, in modes 0 and 2 invalid routes and in mode 3 all but
 * the best class of states left (0; then 1 and 3; then 2), the route with the shortest path, then the lowest ORIGIN, identifier,
 * address and index.
 */
uint8_t bgp_choose(uint8_t mode, uint32_t client,
                   const uint8_t *buffer, size_t buffer_len,
                   const uint8_t *candidates, size_t candidates_len,
                   size_t *beside, size_t *left);

/* Comparing two candidates by that order alone; nothing is removed. */
uint8_t bgp_better(const uint8_t *first, size_t first_len, uint8_t state, uint32_t identifier, uint32_t address,
                   const uint8_t *second, size_t second_len,
                   uint8_t other_state, uint32_t other_identifier, uint32_t other_address,
                   size_t *beside);

/*
 * The index over a table of VRPs: a tree of their prefixes, one bit to a level, by which a look-up finds the state that a scan of
 * the table finds, in at most prefix_length + 1 steps from node to node. There is an index for IPv4 VRPs and one for IPv6 VRPs.
 *
 * The memory is the caller's, and may hold anything before a build. Three of its numbers, a triple, go to each VRP and to each
 * node; what is left of its length makes no triple. The nodes are the leading parts of the prefixes, each up to its own length,
 * counted once, and the root, which also an empty table has. So n VRPs surely fit in n * 33 + 1 triples, of IPv6 in n * 129 + 1:
 *
 *     memory_len = 3 * (n * 33 + 1), of IPv6 3 * (n * 129 + 1); 12 bytes to a triple, and for n = 4,096 1.6 MB, of IPv6 6.3 MB
 *
 * Most tables take less. Of 4,096 VRPs each, all /24s at random from all of IPv4 took 57,800 triples (0.7 MB), and all /48s at
 * random from four /16s, 2001::/16 to 2004::/16, took 98,900 (1.2 MB).
 *
 * What the numbers mean is the library's own. Look-ups in one memory may run on several threads at once, while no build and no
 * insertion runs there.
 */

/*
 * Build: makes the index of a table, whatever the memory held. Answer 7 is given exactly where the nodes exceed the triples that
 * the VRPs leave; the memory is then all zeros.
 */
uint8_t bgp_index_build(const uint8_t *table, size_t table_len,
                        uint32_t *memory, size_t memory_len,
                        size_t *beside);
uint8_t bgp_index_build6(const uint8_t *table, size_t table_len,
                         uint32_t *memory, size_t memory_len,
                         size_t *beside);

/*
 * Insertion: one VRP more at the end of the table, with the answer and the index that a build of the longer table has, but that
 * answer 7 too leaves the memory as it was. The caller keeps both numbers that it takes, from the build on: records grows by one
 * with each answer 0, and nodes becomes *beside. In a memory that does not hold an index of so many records and nodes it ends with
 * some answer; nothing else is promised but that a refusal leaves the memory as it was.
 */
uint8_t bgp_index_insert(const uint8_t *record, size_t record_len,
                         uint32_t *memory, size_t memory_len, size_t records, size_t nodes,
                         size_t *beside);
uint8_t bgp_index_insert6(const uint8_t *record, size_t record_len,
                          uint32_t *memory, size_t memory_len, size_t records, size_t nodes,
                          size_t *beside);

/*
 * Look-up: the state of a route by the table whose index the memory holds, as the origin state of a block whose path ends in the
 * origin. The nodes visited are all those on the route's prefix up to its own length, the root among them, also past a match. In
 * any other memory it ends with some state from 0 to 3, and with at most prefix_length + 1 nodes visited.
 */
uint8_t bgp_index_look_up(const uint32_t *memory, size_t memory_len,
                          uint8_t prefix_length, uint32_t prefix, uint32_t origin,
                          size_t *beside, size_t *visited);
uint8_t bgp_index_look_up6(const uint32_t *memory, size_t memory_len,
                           uint8_t prefix_length, uint64_t prefix_high, uint64_t prefix_low, uint32_t origin,
                           size_t *beside, size_t *visited);

#ifdef __cplusplus
}
#endif

#endif
