/*
 * The campaign planner for callers in C and C++: the cheapest starts of a campaign, from its table file.
 *
 * Build the library with `rt lib` in crates/c_interface and link crates/c_interface/out/libc_interface.a. What
 * the words mean stands in docs/MODEL.md, the file byte by byte in docs/FORMAT.md, refusals in
 * docs/REFUSALS.md.
 */
#ifndef CAMPAIGN_PLANNER_H
#define CAMPAIGN_PLANNER_H

#include <stddef.h>
#include <stdint.h>

#ifdef __cplusplus
extern "C" {
#endif

/*
 * Lengths that are enough for every table file. With n activities, horizon H and m relations a call takes n
 * start bytes, H * (2 * n + m) flow words and 4 * (n * (H - 1) + 2) node words; exactly enough is enough.
 */
#define CAMPAIGN_START_BYTES 64
#define CAMPAIGN_FLOW_WORDS 49152
#define CAMPAIGN_NODE_WORDS 32520

/*
 * Finds the cheapest starts: no start list that meets the campaign costs less, and none of equal cost starts
 * an activity earlier.
 *
 *   file, file_length    the bytes of a table file; only read
 *   starts, start_bytes  lent: the start slot of each activity is written here
 *   flow, flow_words     lent: words of 64 bits for the flow
 *   nodes, node_words    lent: words of 32 bits to work in
 *   cost                 the cost of the starts is written here
 *
 * Lengths count bytes for the file and the starts, words for flow and nodes. Each pointer must be valid for its
 * length (cost for one number), and no two may overlap. Lent memory need not be cleared before a call, and
 * nothing is kept from one call to the next.
 *
 * Answers 0 if it went well. Then the first n start bytes have the cheapest start slot of each activity, *cost
 * has the sum of their prices, and the first H * (2 * n + m) flow words have a flow of the time network whose
 * value is the cost less the floors (docs/PLANNING.md): with it the plan can be checked.
 *
 * Else it is refused, and the answer is number * 65,536 + place:
 *
 *    1 to 6  the file has a fault, at byte `place` (3: it ends inside a field, at its length)
 *   13       too few start bytes; the place is how many are needed
 *   14       too few flow words; likewise
 *   15       too few node words; likewise
 *   19       no start list meets the campaign; the place is 0
 *
 * The file is looked at first, from front to back, and then the memory in the order above; the first that is
 * wrong counts. A refused call leaves starts, flow and *cost as they were.
 *
 * After 0 and 19 the node words taken are 0; after any other answer they are as they were. Memory past what is
 * taken never changes.
 */
uint32_t campaign_cheapest(const uint8_t *file, size_t file_length,
                           uint8_t *starts, size_t start_bytes,
                           uint64_t *flow, size_t flow_words,
                           uint32_t *nodes, size_t node_words,
                           int64_t *cost);

/* The two parts of a refusal. */
#define CAMPAIGN_FAULT(answer) ((uint32_t)(answer) >> 16)
#define CAMPAIGN_PLACE(answer) ((uint32_t)(answer) & 0xFFFFu)

#ifdef __cplusplus
}
#endif

#endif
