// The calls of Gohardim for a C program: look, load and the two writes on the image of a graph table, and list, judge
// and the four folds on the table, proved in Rattle (crates/calls). docs/RULES.md has the rules that they keep, and
// docs/CONTRACTS.md what is proved of each.
//
// To build and link, in the root of the repository, on Linux on x86-64:
//
//     (cd crates/calls && rt lib)                                          proves and builds the archive
//     cc -Iinclude program.c crates/calls/out/libcalls.a -o program        links it
//
// The archive needs nothing but the C library; bench/run shows the same with the kit's own compiler and linker.
//
// A table of n vertices and m edges is lent as slices, each an address and a length; a length counts numbers, not
// bytes.
//
//     starts     n + 1 numbers: where the row of each vertex begins among the targets; the first is 0, the last is m
//     targets    m numbers: the rows, one after the other; each row rises strictly, and each number in it is below n
//     counts     n numbers, not for list and judge: the reads on each vertex; their sum is at most 1,099,511,627,775
//     lengths    n numbers, for images of version 2 alone: the length of each vertex, which is never 0
//
// n is at most 2,048 and m at most 8,192.
//
// An image is a table as bytes, of version 2 with its lengths, lent as one slice of bytes: an address, which needs no
// alignment, and a length. These stand in it one after the other, each number with its lowest byte first.
//
//     the mark       3 bytes, the letters S B T
//     the version    16 bits, 1 or 2
//     n, then m      32 bits each
//     starts         n + 1 numbers of 32 bits
//     targets        m numbers of 32 bits
//     counts         n numbers of 64 bits
//     lengths        n numbers of 16 bits, in version 2 alone
//
// It is 13 + 4 (n + 1) + 4 m + 8 n bytes long, which is at most 57,361; in version 2 it is 2 n bytes longer, which is
// at most 61,457.
//
// A table or an image is checked before anything else is done, so it may hold any numbers or bytes.
//
// Each call returns a number: 0, or the first reason to refuse: in rising order, where a table is handed in, but 20
// before 8; and in the order 10, 11, 1, 2, 12, 3, 4, 5, 7, 20, 8, where an image is.
//
//      1    starts is empty, or has more than 2,049 numbers; of an image: n is above 2,048
//      2    targets has more than 8,192 numbers; of an image: m is above 8,192
//      3    the starts don't begin with 0, fall, or don't end with m
//      4    a target is n or more
//      5    a row doesn't rise strictly
//      6    counts does not have n numbers, or lengths does not, where they are to be written
//      7    the counts sum above 1,099,511,627,775
//      8    a slice that is to be stored to is too short
//      9    the table has a directed cycle, and a self-loop is one; of gohardim_fold and gohardim_fold_weakest alone
//     10    the image has fewer than 13 bytes, or doesn't begin with the mark
//     11    the version of the image is neither 1 nor 2
//     12    the image is not as long as its own version, n and m ask for
//     13    s or t is n or more
//     20    a length is 0
//
// A refusal changes no slice that was lent, and sets each number that is handed out to 0. A slice that is only read is
// never changed.
//
// From an image to the superbubbles of its table, where the image may be any bytes: look, make room for as much as it
// says, load, list. One number more is made room for where there may be none, so that no address is null. Room for n
// lengths is enough for both versions; version 1 asks for none.
//
//     gohardim_u32 version;
//     gohardim_size n, m, found;
//     gohardim_u32 number = gohardim_look(image, image_len, &version, &n, &m);
//     if (number != 0) return number;
//     gohardim_u32 *starts = malloc((n + 1) * sizeof *starts), *targets = malloc((m + 1) * sizeof *targets);
//     gohardim_u32 *out = malloc((2 * n + 1) * sizeof *out);
//     gohardim_u64 *counts = malloc((n + 1) * sizeof *counts);
//     gohardim_u16 *lengths = malloc((n + 1) * sizeof *lengths);
//     ...                                                                  none of them is null
//     number = gohardim_load(image, image_len, starts, n + 1, targets, m, counts, n, lengths, n, &version, &n, &m);
//     if (number == 0) number = gohardim_list(starts, n + 1, targets, m, out, 2 * n, &found);
//
// Load refuses here only what has changed since the look.
//
// A C program must ensure what no call can check, and what the proofs stand on: each address is valid and aligned for
// its length, and not null even where the length is 0; and what is stored to, the handed-out numbers among it, overlaps
// nothing else that is lent. What a handed-out number holds before a call does not matter.
//
// A call takes less than 96 KB of stack, whatever the table, allocates nothing, and keeps nothing for the next one.
#ifndef GOHARDIM_H
#define GOHARDIM_H

#if !defined __x86_64__ || !defined __LP64__
#error "the archive is for x86-64, with a long of 64 bits"
#endif

// These are uint8_t, uint16_t, uint32_t, uint64_t, size_t and bool, without a header: the kit has none.
typedef unsigned char gohardim_u8;
typedef unsigned short gohardim_u16;
typedef unsigned int gohardim_u32;
typedef unsigned long gohardim_u64;
typedef unsigned long gohardim_size;
#ifdef __cplusplus
typedef bool gohardim_bool;
extern "C" {
#else
typedef _Bool gohardim_bool;
#endif

// Looks at an image: whether it is sound, and how large a table it holds.
//
// Hands out in *version the image's version, 1 or 2, and in *vertices and *edges the n and m of the table, and stores
// to nothing else. Needs no room.
// Gives 0, or the first that is due of 10, 11, 1, 2, 12, 3, 4, 5, 7 and 20, in this order, and never 8.
gohardim_u32 gohardim_look(const gohardim_u8 *image, gohardim_size image_len, gohardim_u32 *version,
                           gohardim_size *vertices, gohardim_size *edges);

// Loads the table of an image, and in version 2 its lengths, into slices.
//
// Hands out its version, n and m in *version, *vertices and *edges, and stores the table at the front of starts,
// targets and counts: n + 1, m and n numbers; and in version 2 the lengths at the front of lengths, n numbers. The rest
// of the four stays as it was: in version 1 all of lengths.
// Needs room for n + 1 numbers in starts, m in targets and n in counts, and in version 2 for n in lengths: what look
// hands out is enough to make it. Of version 1 nothing is asked of lengths. The image is judged whole before anything
// is stored, whatever an earlier look said of it.
// Gives 0, or the first that is due of 10, 11, 1, 2, 12, 3, 4, 5, 7 and 20, in this order, or 8 where one of these is
// shorter.
gohardim_u32 gohardim_load(const gohardim_u8 *image, gohardim_size image_len, gohardim_u32 *starts,
                           gohardim_size starts_len, gohardim_u32 *targets, gohardim_size targets_len,
                           gohardim_u64 *counts, gohardim_size counts_len, gohardim_u16 *lengths,
                           gohardim_size lengths_len, gohardim_u32 *version, gohardim_size *vertices,
                           gohardim_size *edges);

// Writes the image of a table, of version 1.
//
// Hands out in *length how many bytes the image has, and stores it at the front of the slice image. The rest of the
// slice stays as it was.
// Needs room for 13 + 4 (n + 1) + 4 m + 8 n bytes in image; 57,361 are enough for every table.
// Gives 0, 1 to 7, or 8 where image is shorter.
gohardim_u32 gohardim_write(const gohardim_u32 *starts, gohardim_size starts_len, const gohardim_u32 *targets,
                            gohardim_size targets_len, const gohardim_u64 *counts, gohardim_size counts_len,
                            gohardim_u8 *image, gohardim_size image_len, gohardim_size *length);

// Writes the image of a table with its lengths, of version 2.
//
// As gohardim_write, with the lengths, one a vertex and none of them 0, behind the counts.
// Needs room for 2 n bytes more in image; 61,457 are enough for every table.
// Gives 0, 1 to 7, 20 where a length is 0, or 8 where image is shorter.
gohardim_u32 gohardim_write_lengths(const gohardim_u32 *starts, gohardim_size starts_len, const gohardim_u32 *targets,
                                    gohardim_size targets_len, const gohardim_u64 *counts, gohardim_size counts_len,
                                    const gohardim_u16 *lengths, gohardim_size lengths_len, gohardim_u8 *image,
                                    gohardim_size image_len, gohardim_size *length);

// Lists the superbubbles of a table: exactly the pairs that meet the published definition, cycles or not.
//
// Hands out in *found how many there are, and stores them at the front of out, entrance and exit of one after the
// other, by rising entrance: out[2 k] and out[2 k + 1] for k below *found. The rest of out stays as it was.
// Needs room for 2 n numbers in out, however many are found.
// Gives 0, 1 to 5, or 8 where out is shorter.
gohardim_u32 gohardim_list(const gohardim_u32 *starts, gohardim_size starts_len, const gohardim_u32 *targets,
                           gohardim_size targets_len, gohardim_u32 *out, gohardim_size out_len, gohardim_size *found);

// Judges one pair: whether s and t are entrance and exit of a superbubble.
//
// Hands out the answer in *yes; and in *size, where it is yes, how many vertices the superbubble has, entrance and exit
// counted, and else 0. Needs no room.
// Gives 0, 1 to 5, or 13 where s or t is no vertex. That a pair is no superbubble is an answer, and no refusal.
gohardim_u32 gohardim_judge(const gohardim_u32 *starts, gohardim_size starts_len, const gohardim_u32 *targets,
                            gohardim_size targets_len, gohardim_u32 s, gohardim_u32 t, gohardim_bool *yes,
                            gohardim_u32 *size);

// Folds the first superbubbles of a table of version 1, as many as the budget, into a second table.
//
// Folded are the outermost superbubbles with an interior, by rising entrance: of each the path with the largest sum of
// inner counts is kept (of equal ones that with the smaller vertex where they first differ), and the counts beside it
// are shared over its inner vertices: their sum divided by how many these are, and one more for each of the first ones
// from the entrance on, as many as the remainder. The vertices keep their numbers, and the sum of the counts does not
// change.
// Hands out in *folded how many were folded, in *left how many can still be folded in the second table, and in *edges
// how many edges that has. Stores the second table at the front of starts2, targets2 and counts2: n + 1, *edges and n
// numbers. The rest of the three stays as it was.
// Needs room for n + 1 numbers in starts2, m in targets2 and n in counts2, whatever is folded.
// Gives 0, 1 to 7, 8 where one of these three is shorter, or 9 where there is a cycle.
gohardim_u32 gohardim_fold(const gohardim_u32 *starts, gohardim_size starts_len, const gohardim_u32 *targets,
                           gohardim_size targets_len, const gohardim_u64 *counts, gohardim_size counts_len,
                           gohardim_u32 budget, gohardim_u32 *starts2, gohardim_size starts2_len,
                           gohardim_u32 *targets2, gohardim_size targets2_len, gohardim_u64 *counts2,
                           gohardim_size counts2_len, gohardim_size *folded, gohardim_size *left,
                           gohardim_size *edges);

// Folds the first superbubbles of a table of version 2, as many as the budget, into a second table.
//
// As gohardim_fold, but of each superbubble the path is kept whose smallest inner count is the largest (of equal ones
// that with the smaller vertex where they first differ), and never the bare edge from entrance to exit. It takes no
// lengths: the vertices keep their numbers, so that the lengths of the first table are those of the second.
gohardim_u32 gohardim_fold_weakest(const gohardim_u32 *starts, gohardim_size starts_len, const gohardim_u32 *targets,
                                   gohardim_size targets_len, const gohardim_u64 *counts, gohardim_size counts_len,
                                   gohardim_u32 budget, gohardim_u32 *starts2, gohardim_size starts2_len,
                                   gohardim_u32 *targets2, gohardim_size targets2_len, gohardim_u64 *counts2,
                                   gohardim_size counts2_len, gohardim_size *folded, gohardim_size *left,
                                   gohardim_size *edges);

// Folds the first candidates of any table of version 1, cycles included, as many as the budget, into a second table.
//
// As gohardim_fold, but with other candidates. A superbubble with a bare edge from entrance to exit whose exit also
// reaches its entrance, by a path anywhere in the table, is skipped: it is never itself folded. The candidates are the
// other superbubbles with an interior, outermost among themselves: one may lie inside a superbubble that is skipped. On
// a table without a cycle the answer and the slices are those of gohardim_fold.
// *left counts candidates: superbubbles with an interior that are skipped may remain in the second table beside them.
// Gives 0, 1 to 7, or 8 where starts2, targets2 or counts2 is shorter, and never 9.
gohardim_u32 gohardim_fold_rings(const gohardim_u32 *starts, gohardim_size starts_len, const gohardim_u32 *targets,
                                 gohardim_size targets_len, const gohardim_u64 *counts, gohardim_size counts_len,
                                 gohardim_u32 budget, gohardim_u32 *starts2, gohardim_size starts2_len,
                                 gohardim_u32 *targets2, gohardim_size targets2_len, gohardim_u64 *counts2,
                                 gohardim_size counts2_len, gohardim_size *folded, gohardim_size *left,
                                 gohardim_size *edges);

// Folds the first candidates of any table of version 2, cycles included, as many as the budget, into a second table.
//
// As gohardim_fold_rings, with the same candidates, but of each the path is kept that gohardim_fold_weakest keeps. On a
// table without a cycle the answer and the slices are those of gohardim_fold_weakest.
gohardim_u32 gohardim_fold_rings_weakest(const gohardim_u32 *starts, gohardim_size starts_len,
                                         const gohardim_u32 *targets, gohardim_size targets_len,
                                         const gohardim_u64 *counts, gohardim_size counts_len, gohardim_u32 budget,
                                         gohardim_u32 *starts2, gohardim_size starts2_len, gohardim_u32 *targets2,
                                         gohardim_size targets2_len, gohardim_u64 *counts2,
                                         gohardim_size counts2_len, gohardim_size *folded, gohardim_size *left,
                                         gohardim_size *edges);

#ifdef __cplusplus
}
#endif

#endif
