/* Network N of document 01 through every call of overlap.h.
 *
 * From the repository root, with the library that `tools/staticlib` builds:
 *
 *     cc -std=c11 -Wall -Wextra -Wpedantic -Werror -Iinclude c/network_n.c target/staticlib/liboverlap.a -o target/network_n
 *     target/network_n
 *
 * The gate compares the output with network_n.expected, which is worked out from document 01 and Asks 1, 4, 6, 7, 8 and 10
 * of document 02.
 *
 * What a caller lends, by the names of overlap.h. n is the number of nodes, A that of arcs; a road is two arcs, one from each end:
 *
 *     starts                n + 1 words; the arcs of node i are those from starts[i] up to, not including, starts[i + 1]
 *     neighbours, weights   A words each: the node that the arc leads to, ascending within a node, and its weight, 1 to 65,535
 *     points                n bytes: the number of points (lockers) on each node, 0 to 15
 *     households, sites     n bytes each, laid out as points
 *     scratch               SCRATCH_LEN (below) words or more, for eager, verify and the short query EAGER_SCRATCH_LEN, of any contents; a call
 *                           that is accepted leaves them all 0
 *     route                 any number of words: nodes, each joined by a road to the one after it; a node may come several times
 *     answers               n words or more; the list stands in the first `length`, without the points on q itself or on a node of the route,
 *                           though with the households on q; distances and the sheet fill n
 *     visits                n words or more; the nodes that eager's count counts stand in the first `count`, by distance from q and then by
 *                           node
 *     ids, distances        of nearest k words each or more; of a table n x K words each, row i from i x K on, and `places` is K; a node with
 *                           several lockers comes as often, as far as there is room
 *     own_.., rival_..      the ids and distances of two tables of one K
 *
 * The library allocates nothing and keeps nothing between calls. A pointer is valid for its length, and not null where that is 0. An array
 * that is not const is lent to one call alone and overlaps no other array of it. What the arrays hold is tested by the call. From C++,
 * include overlap.h inside extern "C" { }.
 *
 * A call returns number 0, or the first met of these, as far as it has their subject, and then changes no array (12 alone clears the scratch):
 *
 *      1  starts has fewer than 2 or more than 65,536 entries
 *      2  starts doesn't begin with 0, falls, or doesn't end with A; neighbours and weights differ in length; A above 524,288
 *      3  a neighbour is n or more, is its own node, or doesn't rise strictly within a node
 *      4  a weight is 0 or above 65,535
 *      5  an arc lacks its return of equal weight
 *      6  points (or households, or sites) has not n entries, or a byte above 15
 *      7  a node given is n or more
 *      8  K not 2 to 17, or a table array not n x K long
 *      9  k is 0 or above 16; by table, above K - 1
 *     10  scratch shorter than SCRATCH_LEN (eager, verify and the short query: than EAGER_SCRATCH_LEN), or an array for answers (eager: or the
 *         visits) shorter than n (nearest: than k)
 *     11  insert at 15 lockers; remove or verify at none
 *     12  eager: the expanded count would exceed the limit
 *     14  route: the list is empty or two nodes in sequence have no road
 *
 * Insert, remove and table query don't test the table that they are lent: lend one that build has written and insert and remove have
 * changed, with the same points, or ask the table check first. Nor does the nearer row, of whose tables the first distances alone decide.
 */
#include "overlap.h"

#include <stdio.h>
#include <stdlib.h>

/* N has 6 nodes and 10 arcs; this program uses k = 1 and 2, K = 2 and 3. */
enum { NODES = 6, ARCS = 10, MOST_PLACES = 3 };

/* Document 01: "Length S = 16 x n + 8 x (A + n) x m entries; m is the k of a search, verify or nearest call [..], K for build, insert and
 * remove, and 1 for distances." "Both checks have no scratch." Document 02 (Ask 1): "For the list, k is 1 to 16; the m of 10 is this k, and 1
 * for the sheet." The nearer row has no scratch. */
#define SCRATCH_LEN(n, arcs, m) (16 * (n) + 8 * ((arcs) + (n)) * (m))

/* Document 02 (Ask 5): "Eager, verify and the short query shall work with 12 x n entries for every k." It is never more than S. */
#define EAGER_SCRATCH_LEN(n) (12 * (n))

/* The three arrays of a network with their lengths. */
typedef struct {
    const uint32_t *starts;
    size_t starts_len;
    const uint32_t *neighbours;
    size_t neighbours_len;
    const uint32_t *weights;
    size_t weights_len;
} network;

/* The arguments of a call: a network, an array with its length, the scratch. */
#define LEND_NETWORK(g) (g).starts, (g).starts_len, (g).neighbours, (g).neighbours_len, (g).weights, (g).weights_len
#define LEND(array) (array), sizeof(array) / sizeof *(array)
#define LEND_SCRATCH LEND(scratch)
#define LEND_EAGER_SCRATCH scratch, EAGER_SCRATCH_LEN(NODES)

/* A network of literal arrays. */
#define NETWORK(starts, neighbours, weights) { LEND(starts), LEND(neighbours), LEND(weights) }

static const uint32_t n_starts[] = { 0, 2, 4, 6, 8, 10, 10 };
static const uint32_t n_neighbours[ARCS] = { 1, 3, 0, 2, 1, 4, 0, 4, 2, 3 };
static const uint32_t n_weights[ARCS] = { 4, 5, 4, 3, 3, 7, 5, 3, 7, 3 };
static const uint32_t p7_weights[ARCS] = { 4, 5, 4, 3, 3, 6, 5, 3, 6, 3 };
static const network n = NETWORK(n_starts, n_neighbours, n_weights);
static const network p7 = NETWORK(n_starts, n_neighbours, p7_weights);

static const uint8_t n_points[NODES] = { 0, 0, 1, 0, 1, 1 };
static const uint8_t no_points[NODES] = { 0 };

/* One array serves all calls: it may be longer than they ask for, and an accepted call leaves it all zero. Eager, verify and the short query
 * are lent its first words alone. */
static uint32_t scratch[SCRATCH_LEN(NODES, ARCS, MOST_PLACES)];

/* Ends the program where a call is refused that must not be. */
static void expect_accepted(uint32_t number)
{
    if (number != 0) {
        fprintf(stderr, "refused by number %u\n", (unsigned)number);
        exit(EXIT_FAILURE);
    }
}

static void print_word(uint32_t word)
{
    if (word == OVERLAP_NONE)
        printf("NONE");
    else
        printf("%u", (unsigned)word);
}

static void print_words(const uint32_t *words, size_t length)
{
    for (size_t i = 0; i < length; i++) {
        if (i > 0)
            printf(", ");
        print_word(words[i]);
    }
}

/* Points with their distances. */
static void print_near(const uint32_t *ids, const uint32_t *distances, size_t length)
{
    for (size_t i = 0; i < length; i++) {
        printf(i > 0 ? ", (" : " (");
        print_word(ids[i]);
        printf(", ");
        print_word(distances[i]);
        printf(")");
    }
    printf("\n");
}

static void print_picture(void)
{
    printf("Network N of document 01. A star marks a point.\n"
           "\n"
           "       4       3\n"
           "   0 ----- 1 ----- 2*\n"
           "   |               |\n"
           " 5 |               | 7\n"
           "   |               |\n"
           "   3 ------------- 4*     5*\n"
           "           3\n");
}

static void print_distances(void)
{
    printf("\nDistances\n");
    for (uint32_t node = 0; node < NODES; node++) {
        uint32_t answers[NODES];
        expect_accepted(overlap_distances(LEND_NETWORK(n), node, LEND_SCRATCH, LEND(answers)));
        printf("from %u: ", (unsigned)node);
        print_words(answers, NODES);
        printf("\n");
    }
}

/* Prints the two nearest points of a node, of those nearer than e. */
static void print_nearest_of(uint32_t node, uint32_t e)
{
    uint32_t ids[2], distances[2];
    overlap_listing found = overlap_nearest(LEND_NETWORK(n), LEND(n_points), node, e, 2, LEND_SCRATCH, LEND(ids),
                                            LEND(distances));
    expect_accepted(found.number);
    print_near(ids, distances, found.length);
}

static void print_nearest(void)
{
    printf("\nNearest, k = 2\n");
    for (uint32_t node = 0; node < NODES; node++) {
        printf("of %u:", (unsigned)node);
        print_nearest_of(node, OVERLAP_NONE);
    }
    printf("of 0, below 8:");
    print_nearest_of(0, 8);
}

static const char *verdict_of(uint32_t p, uint32_t q, uint32_t k)
{
    overlap_verdict verdict = overlap_verify(LEND_NETWORK(n), LEND(n_points), p, q, k, LEND_EAGER_SCRATCH);
    expect_accepted(verdict.number);
    return verdict.yes ? "yes" : "no";
}

static void print_verdicts(void)
{
    /* A point and a site each; the last point is on the site itself. */
    static const uint32_t pairs[][2] = { { 2, 0 }, { 4, 0 }, { 5, 0 }, { 2, 2 } };
    printf("\nVerify: is the point on the list of the site?\n");
    for (size_t i = 0; i < 4; i++) {
        uint32_t p = pairs[i][0], q = pairs[i][1];
        printf("point %u, site %u: k = 1 %s, k = 2 %s\n", (unsigned)p, (unsigned)q, verdict_of(p, q, 1), verdict_of(p, q, 2));
    }
}

/* Prints the list that a search has put into the answers. */
static void print_list(overlap_listing listing, const uint32_t *answers)
{
    expect_accepted(listing.number);
    printf("{");
    print_words(answers, listing.length);
    printf("}");
}

/* The list of a site by the table of the points, which is built for it. */
static void print_by_table(network g, const uint8_t points[NODES], uint32_t q, uint32_t k)
{
    uint32_t answers[NODES], ids[NODES * MOST_PLACES], distances[NODES * MOST_PLACES];
    expect_accepted(overlap_build(LEND_NETWORK(g), points, NODES, MOST_PLACES, LEND_SCRATCH, LEND(ids), LEND(distances)));
    print_list(overlap_table_query(LEND_NETWORK(g), points, NODES, q, k, MOST_PLACES, LEND(ids), LEND(distances),
                                   LEND_SCRATCH, LEND(answers)), answers);
}

/* The list of a site by all four searches, and eager's visits. */
static void print_case(const char *name, network g, const uint8_t points[NODES], uint32_t q, uint32_t k)
{
    uint32_t answers[NODES], visits[NODES];
    overlap_listing eager = overlap_eager(LEND_NETWORK(g), points, NODES, q, k, 65535, LEND_EAGER_SCRATCH, LEND(answers), LEND(visits));
    printf("%s, q %u, k %u: eager ", name, (unsigned)q, (unsigned)k);
    print_list(eager, answers);
    printf(" expanded %u (", (unsigned)eager.count);
    print_words(visits, eager.count);
    printf("), lazy ");
    print_list(overlap_lazy(LEND_NETWORK(g), points, NODES, q, k, LEND_SCRATCH, LEND(answers)), answers);
    printf(", lazy-EP ");
    print_list(overlap_lazy_ep(LEND_NETWORK(g), points, NODES, q, k, LEND_SCRATCH, LEND(answers)), answers);
    printf(", table ");
    print_by_table(g, points, q, k);
    printf("\n");
}

static void print_short_query(uint32_t q)
{
    uint32_t answers[NODES];
    overlap_listing listing = overlap_short_query(LEND_NETWORK(n), LEND(n_points), q, LEND_EAGER_SCRATCH, LEND(answers));
    printf("short query, q %u: ", (unsigned)q);
    print_list(listing, answers);
    printf(" expanded %u\n", (unsigned)listing.count);
}

static void print_cases(void)
{
    printf("\nWhat a site receives\n");
    print_case("P1", n, n_points, 0, 1);
    print_case("P2", n, n_points, 0, 2);
    print_case("P3", n, n_points, 1, 1);
    print_case("P4", n, n_points, 2, 1);
    print_case("P5", n, n_points, 5, 1);
    print_case("P6, no points", n, no_points, 0, 1);
    print_case("P7, road 2-4 of 6", p7, n_points, 0, 1);
    /* Nodes 0 and 4 are equally far from 2. */
    print_case("a tie, no points", n, no_points, 2, 1);
    /* The short query has a k of its own, 2: P1 as a short query gives 2, 4. */
    print_short_query(0);
    print_short_query(3);
    print_short_query(4);
}

static void print_rows(const uint32_t *ids, const uint32_t *distances, size_t rows)
{
    for (size_t i = 0; i < rows; i++) {
        printf("row %u:", (unsigned)i);
        print_near(ids + i * 2, distances + i * 2, 2);
    }
}

static void print_check(const uint8_t points[NODES], const uint32_t ids[NODES * 2], const uint32_t distances[NODES * 2])
{
    overlap_verdict verdict = overlap_table_check(LEND_NETWORK(n), points, NODES, 2, ids, NODES * 2, distances, NODES * 2);
    expect_accepted(verdict.number);
    printf("check: %s\n", verdict.yes ? "yes" : "no");
}

static void print_table(void)
{
    uint8_t points[NODES] = { 0, 0, 1, 0, 1, 1 };
    uint32_t ids[NODES * 2], distances[NODES * 2];
    printf("\nThe table, K = 2\n");
    expect_accepted(overlap_build(LEND_NETWORK(n), LEND(points), 2, LEND_SCRATCH, LEND(ids), LEND(distances)));
    print_rows(ids, distances, NODES);
    print_check(points, ids, distances);

    overlap_update update = overlap_insert(LEND_NETWORK(n), LEND(points), 0, 2, LEND_SCRATCH, LEND(ids), LEND(distances));
    expect_accepted(update.number);
    printf("insert 0: %u rows changed\n", (unsigned)update.changed);
    print_rows(ids, distances, NODES);
    print_check(points, ids, distances);

    update = overlap_remove(LEND_NETWORK(n), LEND(points), 0, 2, LEND_SCRATCH, LEND(ids), LEND(distances));
    expect_accepted(update.number);
    printf("remove 0: %u rows changed\n", (unsigned)update.changed);
    print_rows(ids, distances, 1);
    print_check(points, ids, distances);

    /* A second locker on node 2. */
    update = overlap_insert(LEND_NETWORK(n), LEND(points), 2, 2, LEND_SCRATCH, LEND(ids), LEND(distances));
    expect_accepted(update.number);
    printf("insert 2: %u rows changed\n", (unsigned)update.changed);
    print_rows(ids, distances, 4);
    print_check(points, ids, distances);
}

static const uint8_t households[NODES] = { 1, 2, 0, 1, 0, 3 };

/* The households that each site wins. The sites are the points of N. */
static void print_households(void)
{
    /* A site and a k each. */
    static const uint32_t asked[][2] = { { 0, 1 }, { 0, 2 }, { 2, 1 }, { 4, 1 }, { 5, 1 } };
    uint32_t answers[NODES];
    printf("\nHouseholds 1, 2, 0, 1, 0, 3; sites on 2, 4 and 5\n");
    for (size_t i = 0; i < 5; i++) {
        uint32_t q = asked[i][0], k = asked[i][1];
        printf("site %u, k %u: ", (unsigned)q, (unsigned)k);
        print_list(overlap_households(LEND_NETWORK(n), LEND(households), LEND(n_points), q, k, LEND_SCRATCH, LEND(answers)), answers);
        printf("\n");
    }
    expect_accepted(overlap_sheet(LEND_NETWORK(n), LEND(households), LEND(n_points), LEND_SCRATCH, LEND(answers)));
    printf("sheet: ");
    print_words(answers, NODES);
    printf("\n");
}

/* Of the table of N and a rival's, the row of each junction whose first entry is nearer. */
static void print_nearer_rows(void)
{
    static const uint8_t rival_points[NODES] = { 1, 0, 1, 1, 0, 0 };
    uint32_t own_ids[NODES * 2], own_distances[NODES * 2], rival_ids[NODES * 2], rival_distances[NODES * 2];
    printf("\nThe nearer row, K = 2, the rival's points on 0, 2 and 3\n");
    expect_accepted(overlap_build(LEND_NETWORK(n), LEND(n_points), 2, LEND_SCRATCH, LEND(own_ids), LEND(own_distances)));
    expect_accepted(overlap_build(LEND_NETWORK(n), LEND(rival_points), 2, LEND_SCRATCH, LEND(rival_ids), LEND(rival_distances)));
    for (uint32_t junction = 0; junction < NODES; junction++) {
        overlap_row_part part = overlap_nearer_row_part(LEND_NETWORK(n), junction, 2, LEND(own_ids), LEND(own_distances),
                                                        LEND(rival_ids), LEND(rival_distances));
        expect_accepted(part.number);
        printf("of %u: %s ", (unsigned)junction, part.rival ? "the rival's" : "own");
        print_words((part.rival ? rival_distances : own_distances) + part.start, part.length);
        printf("\n");
    }
}

/* A route of up to four nodes, and a k. */
typedef struct {
    uint32_t nodes[4];
    size_t length;
    uint32_t k;
} route_asked;

static void print_route(route_asked asked)
{
    uint32_t answers[NODES];
    printf("route ");
    print_words(asked.nodes, asked.length);
    printf(", k %u: ", (unsigned)asked.k);
    print_list(overlap_route(LEND_NETWORK(n), LEND(n_points), asked.nodes, asked.length, asked.k, LEND_SCRATCH, LEND(answers)), answers);
    printf("\n");
}

/* The lockers that any stop of a route touches. */
static void print_routes(void)
{
    printf("\nWhat a route touches\n");
    print_route((route_asked){ { 3, 0, 1 }, 3, 1 });
    /* One node: the list is that of P2. */
    print_route((route_asked){ { 0 }, 1, 2 });
    /* The points of 2, and then of 4 as well, stand on the route. */
    print_route((route_asked){ { 1, 2 }, 2, 1 });
    print_route((route_asked){ { 1, 2, 4 }, 3, 1 });
    /* There and back. */
    print_route((route_asked){ { 0, 3, 0, 1 }, 4, 1 });
}

static void print_number(uint32_t number, const char *example)
{
    printf("%u: %s\n", (unsigned)number, example);
}

/* The examples of numbers 1 to 5, on networks of two nodes. */
static void print_network_numbers(void)
{
    static const uint32_t starts[] = { 0, 1, 2 }, falling[] = { 0, 2, 1 };
    static const uint32_t neighbours[] = { 1, 0 }, own[] = { 0, 0 };
    static const uint32_t weights[] = { 4, 4 }, heavy[] = { 65536, 65536 }, uneven[] = { 4, 5 };
    const network one = { starts, 1, neighbours, 0, weights, 0 };
    const network falls = NETWORK(falling, neighbours, weights);
    const network to_itself = NETWORK(starts, own, weights);
    const network too_heavy = NETWORK(starts, neighbours, heavy);
    const network no_return = NETWORK(starts, neighbours, uneven);
    print_number(overlap_network_check(LEND_NETWORK(n)), "N");
    print_number(overlap_network_check(LEND_NETWORK(one)), "starts of 1 entry");
    print_number(overlap_network_check(LEND_NETWORK(falls)), "starts 0, 2, 1");
    print_number(overlap_network_check(LEND_NETWORK(to_itself)), "n = 2, node 0 to 0");
    print_number(overlap_network_check(LEND_NETWORK(too_heavy)), "weight 65,536");
    print_number(overlap_network_check(LEND_NETWORK(no_return)), "0 to 1 of 4, 1 to 0 of 5");
}

/* The examples of numbers 6 to 12, on network N; 6 and 11 by Ask 8. */
static void print_other_numbers(void)
{
    static const uint8_t byte_16[NODES] = { 0, 0, 16, 0, 1, 1 };
    uint8_t points[NODES] = { 0, 0, 1, 0, 1, 1 };
    uint32_t answers[NODES], visits[NODES], ids[NODES * 2], distances[NODES * 2];
    expect_accepted(overlap_build(LEND_NETWORK(n), LEND(points), 2, LEND_SCRATCH, LEND(ids), LEND(distances)));
    print_number(overlap_short_query(LEND_NETWORK(n), LEND(byte_16), 0, LEND_EAGER_SCRATCH, LEND(answers)).number, "N, byte 16");
    print_number(overlap_distances(LEND_NETWORK(n), 6, LEND_SCRATCH, LEND(answers)), "N, node 6");
    print_number(overlap_table_check(LEND_NETWORK(n), LEND(points), 2, ids, 11, LEND(distances)).number, "N, K = 2, 11 ids");
    print_number(overlap_table_query(LEND_NETWORK(n), LEND(points), 0, 2, 2, LEND(ids), LEND(distances), LEND_SCRATCH,
                                     LEND(answers)).number, "K = 2, k = 2");
    print_number(overlap_distances(LEND_NETWORK(n), 0, LEND_SCRATCH, answers, 5), "N, 5 answer places");
    print_number(overlap_remove(LEND_NETWORK(n), LEND(points), 0, 2, LEND_SCRATCH, LEND(ids), LEND(distances)).number,
                 "N, remove 0");
    print_number(overlap_eager(LEND_NETWORK(n), LEND(points), 0, 2, 3, LEND_EAGER_SCRATCH, LEND(answers), LEND(visits)).number,
                 "N, q = 0, k = 2, limit 3");
}

/* Ask 1: "6 covers each byte array, 8 each table, in the order lent." */
static void print_numbers_of_rivals(void)
{
    static const uint8_t byte_16[NODES] = { 0, 0, 16, 0, 0, 0 };
    uint32_t answers[NODES], ids[NODES * 2], distances[NODES * 2];
    expect_accepted(overlap_build(LEND_NETWORK(n), LEND(n_points), 2, LEND_SCRATCH, LEND(ids), LEND(distances)));
    print_number(overlap_households(LEND_NETWORK(n), LEND(byte_16), LEND(n_points), 0, 1, LEND_SCRATCH, LEND(answers)).number,
                 "N, household byte 16");
    print_number(overlap_sheet(LEND_NETWORK(n), LEND(households), LEND(byte_16), LEND_SCRATCH, LEND(answers)), "N, site byte 16");
    print_number(overlap_nearer_row_number(LEND_NETWORK(n), 0, 2, LEND(ids), LEND(distances), ids, 11, LEND(distances)),
                 "N, K = 2, 11 ids of the rival's");
}

/* Ask 7: "7 for each node of the list; 14, after 12, if the list is empty or two nodes in sequence have no road." */
static void print_numbers_of_routes(void)
{
    static const uint32_t no_node[] = { 0, 1, 6 }, no_road[] = { 1, 0, 2 }, to_itself[] = { 0, 0 };
    uint32_t answers[NODES];
    print_number(overlap_route(LEND_NETWORK(n), LEND(n_points), LEND(no_node), 1, LEND_SCRATCH, LEND(answers)).number, "N, route 0, 1, 6");
    print_number(overlap_route(LEND_NETWORK(n), LEND(n_points), LEND(no_road), 1, LEND_SCRATCH, LEND(answers)).number, "N, route 1, 0, 2");
    print_number(overlap_route(LEND_NETWORK(n), LEND(n_points), LEND(to_itself), 1, LEND_SCRATCH, LEND(answers)).number, "N, route 0, 0");
    print_number(overlap_route(LEND_NETWORK(n), LEND(n_points), no_road, 0, 1, LEND_SCRATCH, LEND(answers)).number, "N, a route of no node");
}

int main(void)
{
    print_picture();
    print_distances();
    print_nearest();
    print_verdicts();
    print_cases();
    print_table();
    print_households();
    print_nearer_rows();
    print_routes();
    printf("\nNumbers of refusal, by the example of each\n");
    print_network_numbers();
    print_other_numbers();
    print_numbers_of_rivals();
    print_numbers_of_routes();
    return EXIT_SUCCESS;
}
