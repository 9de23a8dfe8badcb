// The tables that the library and the plain C are called on: some to be timed, and more to be compared; and the image
// of each.
#include "bench.h"

struct table table;
u8 image[sizeof image];
struct lent lent;
struct asked asked;

// ---- a table from its edges

static u32 edge_from[MOST_EDGES + 1], edge_to[MOST_EDGES + 1];
static usize edges;
static u64 seed;

static u32 draw(u32 below) { // a number below `below`, by a linear congruence
    seed = seed * 6364136223846793005ul + 1442695040888963407ul;
    return (seed >> 33) % below;
}

static void edge(u32 from, u32 to) {
    if (edges == MOST_EDGES + 1) give_up("a table has too many edges");
    edge_from[edges] = from;
    edge_to[edges] = to;
    edges++;
}

static u16 draw_length(void) { // one with a low byte alone, a high byte alone, or both, but never 0
    static const u16 places[] = {1, 256, 257};
    u16 byte = 1 + draw(255);
    return byte * places[draw(3)];
}

// Makes the table of the edges noted so far: by rows, each row rising, an edge once. Counts and lengths are drawn.
// Behind what is lent stand rows that do not rise, counts that are too large and lengths of 0, so that a side that
// reads there answers wrong.
static void make(const char *name, usize n, u32 counts_below) {
    static u8 joined[MOST + 1][MOST + 1];
    for (usize v = 0; v < n; v++) memset(joined[v], 0, n);
    for (usize k = 0; k < edges; k++) joined[edge_from[k]][edge_to[k]] = 1;
    edges = 0;
    memset(&table, 0, sizeof table);
    table.name = name;
    table.n = n;
    for (u32 v = 0; v < n; v++) {
        table.starts[v] = table.m;
        table.counts[v] = draw(counts_below);
        for (u32 u = 0; u < n; u++)
            if (joined[v][u]) table.targets[table.m++] = u;
    }
    table.starts[n] = table.m;
    for (usize v = n; v < MOST + 1; v++) {
        table.starts[v + 1] = table.m + 2;
        table.counts[v] = ~0ul;
    }
    for (usize v = 0; v < n; v++) table.lengths[v] = draw_length();
    lent = (struct lent){.starts = n + 1, .targets = table.m, .counts = n, .lengths = n, .out = 2 * MOST + 2,
                         .starts2 = MOST + 2, .targets2 = MOST_EDGES + 1, .counts2 = MOST + 1, .lengths2 = MOST + 1,
                         .image2 = MOST_BYTES + 1};
    asked = (struct asked){0, n - 1, ALL};
}

// ---- tables to be timed

void make_chain(usize n) {
    for (u32 v = 0; v + 1 < n; v++) edge(v, v + 1);
    make("chain", n, 1000);
}

void make_cycle(usize n) {
    for (u32 v = 0; v < n; v++) edge(v, (v + 1) % n);
    make("cycle", n, 1000);
}

// A backbone of k, a tooth at each of its vertices, and one vertex that every tooth leads to: a search from the
// backbone runs to its end.
void make_comb(usize n) {
    u32 k = (n - 1) / 2, z = 2 * k;
    for (u32 v = 0; v < k; v++) {
        if (v + 1 < k) edge(v, v + 1);
        edge(v, k + v);
        edge(k + v, z);
    }
    make("comb", 2 * k + 1, 1000);
}

// Layers of two, each vertex with an edge to every one of the next two layers: no superbubble, since no vertex is alone
// in its layer, and paths through all of them.
void make_layers(usize n) {
    for (u32 v = 0; v < n; v++)
        for (u32 to = v - v % 2 + 2; to < v - v % 2 + 6 && to < n; to++) edge(v, to);
    make("layers", n, 1000);
}

// Superbubbles one after the other, as many as there is room for, each with two arms of `inner` vertices.
void make_two_arms(usize n, usize inner) {
    static char name[16];
    snprintf(name, sizeof name, "arms of %lu", inner);
    u32 s = 0;
    for (u32 t; (t = s + 2 * inner + 1) < n; s = t)
        for (u32 arm = 0; arm < 2; arm++) {
            u32 at = s;
            for (u32 k = 0; k < inner; k++) {
                u32 to = s + 1 + arm * inner + k;
                edge(at, to);
                at = to;
            }
            edge(at, t);
        }
    make(name, s + 1, 1000);
}

// Puts `inner` fresh vertices between s and t: two or three arms side by side, each a row of vertices with more of the
// same between two of them.
static u32 fresh;
static void nest(u32 s, u32 t, usize inner) {
    if (inner < 2) {
        if (inner == 0) {
            edge(s, t);
        } else {
            edge(s, fresh);
            edge(fresh++, t);
        }
        return;
    }
    usize arms = inner >= 3 && draw(3) == 0 ? 3 : 2;
    if (draw(4) == 0) edge(s, t);
    while (arms > 0) {
        usize own = arms == 1 ? inner : 1 + draw(inner - arms + 1);
        inner -= own;
        arms--;
        u32 at = fresh++;
        edge(s, at);
        own--;
        while (own > 0) {
            u32 to = fresh++;
            own--;
            usize part = own == 0 ? 0 : draw(own + 1);
            nest(at, to, part);
            own -= part;
            at = to;
        }
        edge(at, t);
    }
}

// Some superbubbles one after the other, with superbubbles in their arms, and with a bare edge in each of the outermost
// or as it is drawn. Answers the exit of the last.
static u32 nest_in_a_row(usize n, _Bool bare) {
    seed = 2040;
    fresh = 1;
    u32 at = 0;
    while (fresh + 1 <= n) {
        usize room = n - fresh - 1;
        u32 to = fresh++;
        usize part = room < 64 ? room : 64 + draw(room / 4 + 1);
        nest(at, to, part < room ? part : room);
        if (bare) edge(at, to);
        at = to;
    }
    return at;
}

void make_nested(usize n) {
    nest_in_a_row(n, 0);
    make("nested", n, 1000);
}

// The same, closed to a ring; its outermost superbubbles are skipped, and the candidates lie in their arms.
void make_ring(usize n) {
    edge(nest_in_a_row(n, 1), 0);
    make("ring", n, 1000);
}

// As many superbubbles with an interior as there can be, one after the other, each with a bare edge; closed to a ring,
// where n is even, or not.
static void bare_edges(usize n, _Bool ring) {
    for (u32 v = 0; v + 2 < n + ring; v += 2) {
        u32 t = (v + 2) % n;
        edge(v, v + 1);
        edge(v, t);
        edge(v + 1, t);
    }
}

void make_bare_edges(usize n) {
    bare_edges(n, 1);
    make("bare edges", n, 1000);
}

// m edges drawn at random; without a cycle they lead to larger vertices.
void make_random(const char *name, usize n, usize m, _Bool cycles) {
    static u8 drawn[MOST][MOST];
    for (usize v = 0; v < n; v++) memset(drawn[v], 0, n);
    seed = m;
    while (edges < m) {
        u32 from = draw(n), to = draw(n);
        if (!cycles && from > to) {
            u32 swapped = from;
            from = to;
            to = swapped;
        }
        if (drawn[from][to] || (!cycles && from == to)) continue;
        drawn[from][to] = 1;
        edge(from, to);
    }
    make(name, n, 1000);
}

// ---- tables to be compared

// The twelve graphs A to L, and two rings, M and N. J, K and L have the counts of their folds, and B has the largest
// sum. In M a candidate, 4,3, lies inside a superbubble that is skipped, 2,5. N has no candidate, and would get one by
// the fold of 0,2, which is skipped.
void make_graph(char letter) {
    static const struct {
        const char *name, *edges;
        usize n;
        u64 counts[7];
    } graphs[] = {
        {"A", "", 0, {0}},
        {"B", "", 1, {MOST_COUNTED}},
        {"C", "0>1", 2, {3, 1}},
        {"D", "0>1 0>2 1>3 2>3", 4, {9, 4, 5, 9}},
        {"E", "0>1 1>0", 2, {2, 7}},
        {"F", "0>1 1>2 2>0", 3, {6, 0, 6}},
        {"G", "0>1 1>1", 2, {1, 8}},
        {"H", "0>1 0>2 1>3 2>3 3>0", 4, {9, 4, 5, 9}},
        {"I", "0>1 1>2 2>0 2>4 3>0", 5, {5, 5, 5, 2, 3}},
        {"J", "0>1 0>5 1>2 1>3 2>4 3>4 4>6 5>6", 7, {10, 4, 3, 2, 4, 12, 10}},
        {"K", "0>1 0>2 1>3 2>3 3>4 3>5 4>6 5>6", 7, {5, 2, 2, 5, 1, 4, 5}},
        {"L", "0>1 0>2 1>2", 3, {3, 0, 3}},
        {"M", "0>3 1>3 2>4 2>5 3>5 4>0 4>1 5>6 6>2", 7, {2, 3, 5, 5, 5, 5, 5}},
        {"N", "0>1 0>2 1>2 2>3 2>4 3>0 4>0", 5, {4, 1, 4, 2, 2}},
    };
    usize k = letter - 'A';
    for (const char *from = graphs[k].edges; *from != 0; from += from[3] == ' ' ? 4 : 3)
        edge(from[0] - '0', from[2] - '0');
    make(graphs[k].name, graphs[k].n, 1);
    memcpy(table.counts, graphs[k].counts, table.n * sizeof *table.counts);
}

void make_superbubbles(usize n) {
    bare_edges(n, 0);
    make("superbubbles", n, 1000);
}

// One superbubble of all vertices: t is its exit, the vertex behind t its entrance, and every other vertex an arm.
void make_arms(usize n, u32 t) {
    u32 s = (t + 1) % n;
    for (u32 v = 0; v < n; v++) {
        if (v == s || v == t) continue;
        edge(s, v);
        edge(v, t);
    }
    make("arms", n, 3);
    asked.s = s;
    asked.t = t;
}

static u32 step(u32 most) { // 1, 2 or 3, but at most `most`; the smaller, the more often
    return 1 + draw(1 + draw(most < 3 ? most : 3));
}

// At most `most` vertices in a row, each with an edge from one before it and an edge to one behind it: superbubbles one
// after the other and within each other. In a ring an edge leads from the last to the first. Up to two edges more may
// spoil some or close a cycle. The vertices are then numbered at random. The counts are all 0 or up to 3, so that paths
// tie, and in every fifth table as many times larger as their sum allows.
void make_drawn(u32 which, u32 most, _Bool ring) {
    static char name[16];
    static u32 numbers[MOST];
    snprintf(name, sizeof name, "%s %u", ring ? "ring" : "drawn", which);
    seed = which;
    u32 n = 1 + draw(most);
    for (u32 v = 1; v < n; v++) {
        edge(v - step(v), v);
        edge(n - 1 - v, n - 1 - v + step(v));
    }
    if (ring) edge(n - 1, 0);
    for (u32 more = draw(3); more > 0; more--) edge(draw(n), draw(n));
    for (u32 v = 0; v < n; v++) {
        u32 other = draw(v + 1);
        numbers[v] = numbers[other];
        numbers[other] = v;
    }
    for (usize k = 0; k < edges; k++) {
        edge_from[k] = numbers[edge_from[k]];
        edge_to[k] = numbers[edge_to[k]];
    }
    make(name, n, 1 + which % 4);
    if (which % 5 == 4)
        for (u32 v = 0; v < n; v++) table.counts[v] *= MOST_COUNTED / (3 * n);
}

// ---- the image of a table

static u8 *put(u8 *to, u64 number, int bytes) { // and answers where the next one goes
    for (int k = 0; k < bytes; k++) *to++ = number >> 8 * k;
    return to;
}

// Behind the image of version 1 stands a count that is too large, and behind either lengths of 0.
void make_image(u32 version) {
    u8 *at = image;
    for (const char *mark = "SBT"; *mark != 0; mark++) at = put(at, *mark, 1);
    at = put(at, version, 2);
    at = put(at, table.n, 4);
    at = put(at, table.m, 4);
    for (usize v = 0; v <= table.n; v++) at = put(at, table.starts[v], 4);
    for (usize k = 0; k < table.m; k++) at = put(at, table.targets[k], 4);
    for (usize v = 0; v < table.n; v++) at = put(at, table.counts[v], 8);
    if (version == 2)
        for (usize v = 0; v < table.n; v++) at = put(at, table.lengths[v], 2);
    lent.image = at - image;
    memset(at, 0, BEHIND + 1);
    if (version == 1) put(at, ~0ul, 8);
}
