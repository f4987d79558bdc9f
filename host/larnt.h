/* The calls that libhost.a exports (`tools/archives host`), the preview of libhost_preview.a, the draw of some parts
   of libhost_parts.a, the account of libhost_account.a, and at the end those of libhost_text.a, libhost_plotter.a and
   libhost_merge.a. `tools/house` holds these declarations to the crates of these names, type by type. Matrices stand by
   rows.

   Conditions, which no call can test:
   - No pointer is null, not even one of no elements; each is aligned, and has as many elements behind it as its count or
     its array says.
   - What is lent is initialised, also what is only filled, and a `bool` that is lent holds 0 or 1: the contracts are
     about the values that stand there before a call.
   - What is filled overlaps neither what is read nor anything else that is filled, and nobody else writes to what is lent
     while a call runs. The calls keep nothing between them, so threads may call at once.
   - Floating point is as a program starts with it: rounding to nearest, subnormal numbers kept.
   - C converts an argument to the type of its parameter without a word, so a caller that has wider numbers tests them
     first: 260 as a byte of the plotter is 4, a go.

   Stack, measured (docs/MEASURES.md): larnt_draw and larnt_draw_with need about 241 KB for local arrays, larnt_preview
   247 KB, larnt_build 198 KB, and 512 bytes for each level of the tree, at most 1,023 levels, so 759 KB at most.
   larnt_own_hit, larnt_own_contains, larnt_intersect, larnt_visible, larnt_occluder, larnt_covered, larnt_covered_all,
   larnt_merge and larnt_write need about 200 KB, larnt_check 10 KB, larnt_canonical 340 KB.
   larnt_chop and larnt_simplify need 4 KB and larnt_outline 29 KB, however long the paths are. */
#ifndef LARNT_H
#define LARNT_H

#include <stdbool.h>
#include <stddef.h>
#include <stdint.h>

#ifdef __cplusplus
extern "C" {
#endif

/* Names for the numbers and lengths below. */
enum { /* kinds of entries */
    LARNT_SPHERE = 1,
    LARNT_CYLINDER,
    LARNT_CONE,
    LARNT_CUBE,
    LARNT_TRIANGLE,
    LARNT_PLACED,
    LARNT_CUT,
    LARNT_CLOSED_CYLINDER,
    LARNT_CLOSED_CONE
};
enum { /* operations of a cut: the Rust's two, and the two by the true distance */
    LARNT_LAST_RAY_INTERSECTION,
    LARNT_LAST_RAY_DIFFERENCE,
    LARNT_INTERSECTION,
    LARNT_DIFFERENCE
};
enum { /* what a call answers; README has the words of each refusal */
    LARNT_DONE = 0,
    LARNT_REFUSED_LENGTHS = 2,
    LARNT_REFUSED_KIND = 3,
    LARNT_REFUSED_PARTS = 4,
    LARNT_REFUSED_MEASURE = 5,
    LARNT_REFUSED_PLACING = 6,
    LARNT_REFUSED_BOX = 7,
    LARNT_REFUSED_VIEW = 8,
    LARNT_REFUSED_POINT = 9,
    LARNT_REFUSED_RESTARTS = 11,
    LARNT_REFUSED_WAITING = 12,
    LARNT_REFUSED_ROOM = 13,
    LARNT_REFUSED_STRIPES = 14,
    LARNT_REFUSED_USED_UP = 15,
    LARNT_REFUSED_REGISTER = 16,
    LARNT_REFUSED_COMMAND = 17
};
enum { /* how many places */
    LARNT_POINT_NUMBERS = 3,
    LARNT_ENTRY_NUMBERS = 16,
    LARNT_ENTRY_MARKS = 4,
    LARNT_VIEW_NUMBERS = 22,
    LARNT_NODE_NUMBERS = 6,
    LARNT_NODE_MARKS = 3,
    LARNT_WORK_SLICES = 8 /* of a draw's `work` and `work_starts` */
};

/* The square root, correctly rounded: -0 for -0, a NaN for a negative and for a NaN. `rest` becomes its exact
   remainder: for a positive finite x the root is R * 2^k with R from 2^52 to 2^53 - 1, x is S * 4^k, and the
   remainder is S - R * R; else it is 0. So the root is exact where it is 0, below the true one where it is
   positive, and above it where it is negative. */
double larnt_sqrt(double x, int64_t *rest);

/* The length of a vector and the distance of two points, each with the remainder of its root: that of the
   computed sum of squares. */
double larnt_length(const double v[3], int64_t *rest);
double larnt_distance(const double a[3], const double b[3], int64_t *rest);

/* Where a ray (origin, direction) enters and leaves a box (min, max). */
void larnt_box_test(const double box[6], const double ray[6], double span[2]);

/* The projection of a point by a matrix, over the fourth coordinate. */
void larnt_project(const double matrix[16], const double point[3], double projected[3]);

/* The inverse of a matrix; answers the determinant that it was divided by. */
double larnt_inverse(const double matrix[16], double inverse[16]);

/* A solid of kinds 1 to 5, 8 or 9 with its measures first among 16 numbers: 1 sphere (centre, radius),
   2 cylinder (radius, z0, z1), 3 cone (radius, height), 4 cube (min, max), 5 triangle (three corners),
   8 closed cylinder and 9 closed cone with the measures of 2 and 3: a disc closes either end of the cylinder
   and the base of the cone.
   Each answers 0, or 3 for any other kind; what is filled is then 0 and false. */
uint32_t larnt_solid_hit(uint32_t kind, const double numbers[16], const double ray[6], double *t, bool *ok);
uint32_t larnt_solid_box(uint32_t kind, const double numbers[16], double box[6]);
uint32_t larnt_solid_contains(uint32_t kind, const double numbers[16], const double point[3], double f, bool *inside);

/* A scene: five slices, each a pointer and a count of elements. An entry has 16 numbers and 4 marks
   (kind, detail, first part, second part); kinds 1 to 5, 8 and 9 as above, 6 a placed part (matrix by rows), 7 a cut
   (detail 0 intersection, 1 difference, which answer the t of the last ray as the Rust does; 2 and 3 the same
   with the true distance, from a ray's first origin). The detail of kind 4 is its stripes, 1 to 1,000; that of
   kinds 2, 3, 8 and 9 is the stripe count, 0 to 360: a line at each (360 / count, rounded down) degrees, before the
   handed-in ones; 0 for none. A solid of kinds 1 to 3, 8 or 9 that has neither stripes nor a handed-in line is drawn with
   its outline (larnt_outline); a line without points is one too. Three numbers a point; a path has a start, in points, and
   an owner, an entry of kinds 1 to 3, 8 or 9. */
#define LARNT_SCENE \
    const double *numbers, size_t numbers_count, const uint32_t *marks, size_t marks_count, \
    const double *points, size_t points_count, const size_t *starts, size_t starts_count, \
    const uint32_t *owners, size_t owners_count

/* The most entries of a scene. */
#define LARNT_ENTRIES 1024

/* Each answers 0, or the number of the refusal, 2 to 7 or 14 for the scene; what is filled is then 0 and false. */

/* Fills 16 numbers an entry (the inverse of a placing, else zeros), 6 an entry (its box, min and max),
   and the drawn entries, each followed by zeros; count is how many are drawn. */
uint32_t larnt_check(LARNT_SCENE, double inverses[16 * LARNT_ENTRIES], double boxes[6 * LARNT_ENTRIES],
                     uint32_t drawn[LARNT_ENTRIES], size_t *count);

/* The hit that the solid at an entry gives a ray, with no tree and no other solid; 8 for the ray, 11 for
   a cut's restarts. Where there is no such entry every ray misses. */
uint32_t larnt_own_hit(LARNT_SCENE, size_t entry, const double ray[6], double *t, bool *ok);

/* Whether the solid at an entry, widened by f, contains a point. */
uint32_t larnt_own_contains(LARNT_SCENE, size_t entry, const double point[3], double f, bool *inside);

/* A tree: 6 numbers (box, min and max) and 3 marks a node (first child or first place in the order, count,
   axis: 0 none, 1 X, 2 Y, 3 Z), and the drawn entries in the leaves' order. */
#define LARNT_TREE \
    const double *node_boxes, size_t node_boxes_count, const uint32_t *node_marks, size_t node_marks_count, \
    const uint32_t *order, size_t order_count

/* The tree of a scene's drawn entries, followed by zeros in each slice; count is how many nodes it has.
   13 where a slice is too short. */
uint32_t larnt_build(LARNT_SCENE, double *node_boxes, size_t node_boxes_count, uint32_t *node_marks, size_t node_marks_count,
                     uint32_t *order, size_t order_count, size_t *count);

/* The entry that is named where none is. */
#define LARNT_NOBODY 0xFFFFFFFFu

/* The nearest hit on the tree that larnt_build made of the scene; 8 for the ray, 11 for a cut's restarts,
   12 for the walk's waiting places. `entry` is the drawn entry whose t last became the best, a miss's t below
   1e9 included; LARNT_NOBODY where none did. On rows that no build of this scene left, this call and the next
   two still end and stay within their slices, and answer what a walk of those rows finds. Zeros, as a refused
   build leaves them, are an empty tree: nothing is hit and every point is visible. So a host asks these three
   only where larnt_build answered 0. */
uint32_t larnt_intersect(LARNT_SCENE, LARNT_TREE, const double ray[6], double *t, bool *ok, uint32_t *entry);

/* Whether the eye sees a point past the solids of that tree; 8 for the eye, 9 for the point, 11, 12. */
uint32_t larnt_visible(LARNT_SCENE, LARNT_TREE, const double eye[3], const double point[3], bool *seen);

/* The same with a name: the entry that hides the point, whose own distance falls short of the eye;
   LARNT_NOBODY where the point is visible. */
uint32_t larnt_occluder(LARNT_SCENE, LARNT_TREE, const double eye[3], const double point[3], uint32_t *entry);

/* The same by a walk that stops at the first solid whose distance falls short of the eye: wherever larnt_visible
   answers, the same; where it meets 11 or 12 only after such a solid, false with 0; else the same number. This call
   and the next are asked, as those two, only where larnt_build answered 0. */
uint32_t larnt_covered(LARNT_SCENE, LARNT_TREE, const double eye[3], const double point[3], bool *seen);

/* The same of many points, three numbers each, with one check of the scene: fills `told` with a byte a point, 1
   seen, 2 not, or the number of the point's own refusal, 9, 11 or 12, followed by zeros. Answers 0, or 2 where
   `tested_count` is not three numbers a point, 2 to 7 or 14 for the scene, 8 for the eye, 13 where `told` has fewer bytes
   than there are points; `told` is then zeros throughout. */
uint32_t larnt_covered_all(LARNT_SCENE, LARNT_TREE, const double eye[3], const double *tested, size_t tested_count,
                           uint8_t *told, size_t told_count);

/* Paths: three numbers a point, and where each path starts, in points. The result is followed by zeros in
   both slices; what is counted is points and paths. Each answers 0, or the number of the refusal: 2 and 4
   for the paths, 8 for the view or the threshold, 9 for a point, 13 where a slice is too short. */
#define LARNT_PATHS \
    double *out, size_t out_count, size_t *begins, size_t begins_count, size_t *points_out, size_t *paths_out

/* The paths chopped for a view: matrix by rows (16), eye (3), width, height, step. 10, once for its halvings, no
   longer occurs, in this call or any other. */
uint32_t larnt_chop(const double view[22], const double *points, size_t points_count, const size_t *starts,
                    size_t starts_count, LARNT_PATHS);

/* The outline that a draw's first step adds for a round solid that has neither stripes nor handed-in lines, in the
   solid's own coordinates: rings, then lines. The solid is one of kinds 1 to 5, 8 or 9 with its 16 numbers, as above
   (cubes and triangles have no outline). `eye` is the eye as the solid sees it, taken back through each placing's
   inverse, outermost first; `placings` are the matrices of the placings around it, innermost first, 16 numbers each,
   so none for a solid that is not placed; the view is the draw's own, as for larnt_chop. Fills paths as larnt_chop
   does. 2 where `placings_count` is no multiple of 16, 3 for any other kind, 4 for more than 7 placings, 8 for the
   view, 13; the numbers of the solid, of `eye` and of `placings` are not judged. */
uint32_t larnt_outline(uint32_t kind, const double numbers[16], const double eye[3], const double *placings,
                       size_t placings_count, const double view[22], LARNT_PATHS);

/* The paths simplified. */
uint32_t larnt_simplify(const double *points, size_t points_count, const size_t *starts, size_t starts_count,
                        double threshold, LARNT_PATHS);

/* The drawing of a scene by a view, simplified with 1e-4. It works in the slices after `begins`, which are zeros throughout
   afterwards: `work` and `work_starts` are eight equal slices end to end, one for the collected lines and
   one for each cut within a cut; then the result of a chop, and the tree as above. Answers 0, or the number
   of the refusal: 2 to 7 or 14 for the scene, 8 for the view, then 9 to 13 for the first trouble met. */
uint32_t larnt_draw(LARNT_SCENE, const double view[22], double *out, size_t out_count, size_t *begins,
                    size_t begins_count, double *work, size_t work_count, size_t *work_starts,
                    size_t work_starts_count, double *chopped, size_t chopped_count, size_t *chopped_starts,
                    size_t chopped_starts_count, double *node_boxes, size_t node_boxes_count, uint32_t *node_marks,
                    size_t node_marks_count, uint32_t *order, size_t order_count, size_t *points_out,
                    size_t *paths_out);

/* The same simplified with a threshold: 1e-6 for a sheet in fine detail, 0 to keep every vertex that is off
   its segment. 8 where it is not finite or is negative, -0 is 0, and there is no upper bound. */
uint32_t larnt_draw_with(LARNT_SCENE, const double view[22], double threshold, double *out, size_t out_count,
                         size_t *begins, size_t begins_count, double *work, size_t work_count, size_t *work_starts,
                         size_t work_starts_count, double *chopped, size_t chopped_count, size_t *chopped_starts,
                         size_t chopped_starts_count, double *node_boxes, size_t node_boxes_count,
                         uint32_t *node_marks, size_t node_marks_count, uint32_t *order, size_t order_count,
                         size_t *points_out, size_t *paths_out);

/* The preview that libhost_preview.a exports (`tools/archives host_preview`): the answer of larnt_draw_with and its
   counts, for `out` of out_len numbers and `begins` of begins_len starts, neither of which is lent. It works in what
   a draw works in, and that is zeros afterwards. To learn how many places a draw needs, ask with SIZE_MAX; then lend
   three numbers a point, and one start more than it counts paths: at step 0 a path that vanishes takes a start until it
   does, and a draw with only as many starts as paths are left may meet 13. At a step above 0 the counts are enough. */
uint32_t larnt_preview(LARNT_SCENE, const double view[22], double threshold, size_t out_len, size_t begins_len,
                       double *work, size_t work_count, size_t *work_starts, size_t work_starts_count,
                       double *chopped, size_t chopped_count, size_t *chopped_starts, size_t chopped_starts_count,
                       double *node_boxes, size_t node_boxes_count, uint32_t *node_marks, size_t node_marks_count,
                       uint32_t *order, size_t order_count, size_t *points_out, size_t *paths_out);

/* The draw of some parts that libhost_parts.a exports (`tools/archives host_parts`): larnt_draw_with with the lines of
   the drawn entries number first, first + 1 and so on alone, `many` of them as far as there are any; all solids of the
   scene hide. Drawn entries are counted from 0, in the order of larnt_check, and any two numbers may be asked for. The
   drawings of consecutive ranges, one after the other, are the whole drawing, bit for bit: its points, and its starts
   moved on by the points before. Where larnt_draw_with is answered each range is, in the same places; a range may be
   lent fewer. All that is lent is cleared at the end, so a small range is fast in places of its own. Two threads may
   draw two ranges of one scene at once, each in what it is lent. */
uint32_t larnt_draw_range(LARNT_SCENE, const double view[22], double threshold, size_t first, size_t many, double *out,
                          size_t out_count, size_t *begins, size_t begins_count, double *work, size_t work_count,
                          size_t *work_starts, size_t work_starts_count, double *chopped, size_t chopped_count,
                          size_t *chopped_starts, size_t chopped_starts_count, double *node_boxes,
                          size_t node_boxes_count, uint32_t *node_marks, size_t node_marks_count, uint32_t *order,
                          size_t order_count, size_t *points_out, size_t *paths_out);

/* The account of a sheet, in two calls that libhost_account.a exports (`tools/archives host_account`): the lines that a draw
   puts to its fourth step, the clip and the eye test, and what becomes of their points there.

   The lines of the drawn entries number first, first + 1 and so on, `many` of them as far as there are any, as for
   larnt_draw_range: those of the solids, those handed in and the outlines, collected and, at a step above 0, chopped. They
   are points of the scene, not of the sheet. What is asked of one entry and then of the next is, one after the other, what
   is asked of both. `out` and `begins` also serve the chops of cuts on the way. `work` and `work_starts` are eight equal
   slices end to end, as for larnt_draw, and zeros throughout afterwards; neither a second chop nor a tree is needed.
   Answers 0, or the number of the refusal: 2 to 7 or 14 for the scene, 8 for the view, then 9 or 13. */
uint32_t larnt_entry_lines(LARNT_SCENE, const double view[22], size_t first, size_t many, double *out, size_t out_count,
                           size_t *begins, size_t begins_count, double *work, size_t work_count, size_t *work_starts,
                           size_t work_starts_count, size_t *points_out, size_t *paths_out);

/* The words of larnt_fates: a point that the draw passes, and one that the view clips away. LARNT_FATE_REFUSED and the
   number, 9, 11 or 12, is a point that meets that number. Any smaller word is the drawn entry that hides the point. */
#define LARNT_FATE_VISIBLE 0xFFFFFFFFu
#define LARNT_FATE_CLIPPED 0xFFFFFFFEu
#define LARNT_FATE_REFUSED 0xFFFFFF00u

/* What becomes of each of many points, three numbers each, at the fourth step of a draw by that view: fills `told` with a
   word a point, followed by zeros. The entry that is named as hiding a point is the one that larnt_occluder names: its own
   distance falls short of the eye. So of the points of larnt_entry_lines each is counted once, as clipped, visible, hidden
   or refused, and a draw passes those that are visible and no others. The tree is the one that larnt_build made of the
   scene, where that answered 0. Answers 0, or 2 where `tested_count` is not three numbers a point, 2 to 7 or 14 for the
   scene, 8 for the view, 13 where `told` has fewer words than there are points; `told` is then zeros throughout. */
uint32_t larnt_fates(LARNT_SCENE, LARNT_TREE, const double view[22], const double *tested, size_t tested_count,
                     uint32_t *told, size_t told_count);

/* Canonical text: the calls that libhost_text.a exports (`tools/archives host_text`).

   Writes a view and a scene as forms: the view's line, then one line for each drawn entry in order; counts and
   operations in decimal, every other number as # and 16 upper-case digits, a round solid's count of 0 left out. A NaN,
   which only a point of a line may be, is #7FF8000000000000 whatever its bits are. The text is followed by zeros;
   `count` becomes how many bytes it has. Answers 0, or the number of the refusal: 2 to 7 or 14 for the scene, 8 for the
   view, 13 where `text` is too short; `text` is then zeros throughout, and `count` 0. */
uint32_t larnt_write(LARNT_SCENE, const double view[22], uint8_t *text, size_t text_count, size_t *count);

/* What the program `canonical` answers a yard's text: the same in canonical form, or "(refused N)" and a line feed,
   followed by zeros. An accepted text that is in that form already is printed as it came; one with a NaN of other bits
   than #7FF8000000000000 is not in that form. Answers how many bytes that is; N is 13 where `out` is too short for the
   text, and the answer 0 where it is too short for either. */
size_t larnt_canonical(const uint8_t *text, size_t text_count, uint8_t *out, size_t out_count);

/* The plotter's registers: the calls that libhost_plotter.a exports (`tools/archives host_plotter`), declared in
   crates/host_plotter/src/registers.rt. No machine is behind them, and all state is in what is lent.

   pen is where the pen is and target where the last accepted move goes, X and Y in tenths of a millimetre. bytes
   are 0 last command (1 pen down, 2 pen up, 3 home, 4 go), 1 status (bit 0 pen down, bit 1 busy, bit 2 off sheet),
   2 and 3 target X, 4 and 5 target Y, low byte first, 6 interrupt mask, 7 pending. All are 0 at first; the calls
   take any contents. */
typedef struct {
    uint16_t pen[2], target[2];
    uint8_t bytes[8];
} larnt_registers;

/* Writes one byte. Answers 0, or the number of the refusal, and then nothing changes: 16 for bytes 1 and 7 and
   past byte 7, 17 for a command that is not 1 to 4 and for any while busy. A go past 8,410 in X or 5,940 in Y
   answers 0 too: it sets bit 2 and moves nothing. A write to the mask clears pending. A value outside 0 to 255 is none
   of these refusals: C has made a byte of it before the call (see the conditions at the top). */
uint32_t larnt_plotter_write(larnt_registers *registers, size_t at, uint8_t value);

/* One step: while busy each axis moves one tenth toward the target; on arrival busy clears, and bit 0 of pending
   is set if bit 0 of the mask is. Changes nothing where bit 1 of the status is clear. After an accepted move busy
   clears after as many steps as the larger axis distance, or after one if that is 0. */
void larnt_plotter_step(larnt_registers *registers);

/* Pen travel, of libhost_plotter.a too, over two drawings, a yard and its dimension lines: three numbers a
   point, and where each path starts, in points. `marks` has one byte a path, the yard's first: another than 0 says
   that the path is drawn. Picks the undrawn path, not an empty one, whose first point is nearest to the pen in
   computed squared distance; equal distances go to the yard, then to the earlier path. `of_lines` becomes whether
   it is one of the lines, `path` its place among that drawing's paths, `from` its first point and `end` the one
   after its last; so its numbers are those from 3 * from up to 3 * end. Its byte becomes 1. Answers 0, or the
   number of the refusal: 2 (numbers not in threes, or not one byte a path), 4 (path starts), 9 (a number of the
   pen or of a path that is not finite), 15 (both drawings are used up); then `of_lines` is false, the other three
   are 0 and no byte changes. */
uint32_t larnt_pick(const double *yard, size_t yard_count, const size_t *yard_starts, size_t yard_starts_count,
                    const double *lines, size_t lines_count, const size_t *line_starts, size_t line_starts_count,
                    const double pen[3], uint8_t *marks, size_t marks_count, bool *of_lines, size_t *path,
                    size_t *from, size_t *end);

/* Two scenes merged into one, of libhost_merge.a (`tools/archives host_merge`, declared in crates/host_merge/src/lib.rt):
   the first scene's entries, then the second's with used part, owner and start indices raised; a scene without path
   starts gives no points. The result slices hold the merged scene, then zeros, and the counts are its entries, points
   and paths. Answers 0, or the number of the refusal: 2 to 7 or 14 for the first scene, then for the second, then 2 for
   more than 1,024 entries together and 13 where a result slice is too short (16 numbers and 4 marks an entry, three
   numbers a point, a start and an owner a path); the slices and the counts are then zeros. */
uint32_t larnt_merge(LARNT_SCENE, const double *more_numbers, size_t more_numbers_count, const uint32_t *more_marks,
                     size_t more_marks_count, const double *more_points, size_t more_points_count,
                     const size_t *more_starts, size_t more_starts_count, const uint32_t *more_owners,
                     size_t more_owners_count, double *out_numbers, size_t out_numbers_count, uint32_t *out_marks,
                     size_t out_marks_count, double *out_points, size_t out_points_count, size_t *out_starts,
                     size_t out_starts_count, uint32_t *out_owners, size_t out_owners_count, size_t *entry_count,
                     size_t *point_count, size_t *path_count);

/* Structs over the calls of ten and more arguments. A count is of entries, points, paths or nodes, not of numbers, and
   NULL stands for what is empty, whatever its count. larnt_scene_X and larnt_lines_X hand over to larnt_X. */

typedef struct {
    const double *numbers;  /* 16 an entry */
    const uint32_t *marks;  /* 4 an entry: kind, detail, first part, second part */
    size_t entries;
    const double *points;   /* 3 a point */
    size_t points_count;
    const size_t *starts;   /* where each path starts, in points, */
    const uint32_t *owners; /* and the entry that owns it */
    size_t paths;
} larnt_scene;

/* The places of a tree, which larnt_scene_build fills: `nodes` of them are enough if they are larnt_tree_nodes(entries). */
typedef struct {
    double *boxes;   /* 6 a node */
    uint32_t *marks; /* 3 a node */
    uint32_t *order; /* 1 a node */
    size_t nodes;
} larnt_tree;

/* Paths that are read. */
typedef struct {
    const double *points; /* 3 a point */
    size_t points_count;
    const size_t *starts; /* 1 a path */
    size_t paths;
} larnt_lines;

/* Room for paths, and then how many points and paths a call left in it. */
typedef struct {
    double *points; /* 3 a point */
    size_t points_room;
    size_t *starts; /* 1 a path */
    size_t paths_room;
    size_t points_count, paths;
} larnt_paths;

/* What a draw works in, for so many points and paths; zeros throughout afterwards. */
typedef struct {
    double *work;           /* 8 * 3 a point */
    size_t *work_starts;    /* 8 a point */
    double *chopped;        /* 3 a point */
    size_t *chopped_starts; /* 1 a point */
    size_t room;
    larnt_tree tree;
} larnt_work;

/* Room for a scene that is made of two, and then how many entries, points and paths a call left in it. */
typedef struct {
    double *numbers; /* 16 an entry */
    uint32_t *marks; /* 4 an entry */
    size_t entries_room;
    double *points; /* 3 a point */
    size_t points_room;
    size_t *starts;   /* 1 a path */
    uint32_t *owners; /* 1 a path */
    size_t paths_room;
    size_t entries, points_count, paths;
} larnt_merged;

/* A path that was picked: of which drawing, its place there, its first point and the one after its last. */
typedef struct {
    bool of_lines;
    size_t path, from, end;
} larnt_picked;

/* The nodes of a tree with a leaf an entry. */
static inline size_t larnt_tree_nodes(size_t entries)
{
    return 2 * entries + 1;
}

/* Handed over in place of NULL, with a count of 0: it is neither read nor written. */
static inline void *larnt_nothing(void)
{
    static double nothing[1];
    return nothing;
}

#define LARNT_SLICE(type, at, count) (at) ? (at) : (type *)larnt_nothing(), (at) ? (count) : 0
#define LARNT_OF_SCENE(s) \
    LARNT_SLICE(const double, (s)->numbers, LARNT_ENTRY_NUMBERS * (s)->entries), \
    LARNT_SLICE(const uint32_t, (s)->marks, LARNT_ENTRY_MARKS * (s)->entries), \
    LARNT_SLICE(const double, (s)->points, LARNT_POINT_NUMBERS * (s)->points_count), \
    LARNT_SLICE(const size_t, (s)->starts, (s)->paths), LARNT_SLICE(const uint32_t, (s)->owners, (s)->paths)
#define LARNT_OF_TREE(t) \
    LARNT_SLICE(double, (t)->boxes, LARNT_NODE_NUMBERS * (t)->nodes), \
    LARNT_SLICE(uint32_t, (t)->marks, LARNT_NODE_MARKS * (t)->nodes), LARNT_SLICE(uint32_t, (t)->order, (t)->nodes)
#define LARNT_OF_LINES(l) \
    LARNT_SLICE(const double, (l)->points, LARNT_POINT_NUMBERS * (l)->points_count), \
    LARNT_SLICE(const size_t, (l)->starts, (l)->paths)
#define LARNT_OF_ROOM(p) \
    LARNT_SLICE(double, (p)->points, LARNT_POINT_NUMBERS * (p)->points_room), \
    LARNT_SLICE(size_t, (p)->starts, (p)->paths_room)
#define LARNT_OF_LINE_WORK(w) \
    LARNT_SLICE(double, (w)->work, LARNT_WORK_SLICES * LARNT_POINT_NUMBERS * (w)->room), \
    LARNT_SLICE(size_t, (w)->work_starts, LARNT_WORK_SLICES * (w)->room)
#define LARNT_OF_WORK(w) \
    LARNT_OF_LINE_WORK(w), \
    LARNT_SLICE(double, (w)->chopped, LARNT_POINT_NUMBERS * (w)->room), \
    LARNT_SLICE(size_t, (w)->chopped_starts, (w)->room), LARNT_OF_TREE(&(w)->tree)
#define LARNT_OF_MERGED(m) \
    LARNT_SLICE(double, (m)->numbers, LARNT_ENTRY_NUMBERS * (m)->entries_room), \
    LARNT_SLICE(uint32_t, (m)->marks, LARNT_ENTRY_MARKS * (m)->entries_room), \
    LARNT_SLICE(double, (m)->points, LARNT_POINT_NUMBERS * (m)->points_room), \
    LARNT_SLICE(size_t, (m)->starts, (m)->paths_room), LARNT_SLICE(uint32_t, (m)->owners, (m)->paths_room)

static inline uint32_t larnt_scene_check(const larnt_scene *scene, double inverses[16 * LARNT_ENTRIES],
                                         double boxes[6 * LARNT_ENTRIES], uint32_t drawn[LARNT_ENTRIES], size_t *count)
{
    return larnt_check(LARNT_OF_SCENE(scene), inverses, boxes, drawn, count);
}

static inline uint32_t larnt_scene_own_hit(const larnt_scene *scene, size_t entry, const double ray[6], double *t,
                                           bool *ok)
{
    return larnt_own_hit(LARNT_OF_SCENE(scene), entry, ray, t, ok);
}

static inline uint32_t larnt_scene_own_contains(const larnt_scene *scene, size_t entry, const double point[3], double f,
                                                bool *inside)
{
    return larnt_own_contains(LARNT_OF_SCENE(scene), entry, point, f, inside);
}

static inline uint32_t larnt_scene_build(const larnt_scene *scene, larnt_tree *tree, size_t *count)
{
    return larnt_build(LARNT_OF_SCENE(scene), LARNT_OF_TREE(tree), count);
}

static inline uint32_t larnt_scene_intersect(const larnt_scene *scene, const larnt_tree *tree, const double ray[6],
                                             double *t, bool *ok, uint32_t *entry)
{
    return larnt_intersect(LARNT_OF_SCENE(scene), LARNT_OF_TREE(tree), ray, t, ok, entry);
}

static inline uint32_t larnt_scene_visible(const larnt_scene *scene, const larnt_tree *tree, const double eye[3],
                                           const double point[3], bool *seen)
{
    return larnt_visible(LARNT_OF_SCENE(scene), LARNT_OF_TREE(tree), eye, point, seen);
}

static inline uint32_t larnt_scene_occluder(const larnt_scene *scene, const larnt_tree *tree, const double eye[3],
                                            const double point[3], uint32_t *entry)
{
    return larnt_occluder(LARNT_OF_SCENE(scene), LARNT_OF_TREE(tree), eye, point, entry);
}

static inline uint32_t larnt_scene_covered(const larnt_scene *scene, const larnt_tree *tree, const double eye[3],
                                           const double point[3], bool *seen)
{
    return larnt_covered(LARNT_OF_SCENE(scene), LARNT_OF_TREE(tree), eye, point, seen);
}

/* A byte a point. */
static inline uint32_t larnt_scene_covered_all(const larnt_scene *scene, const larnt_tree *tree, const double eye[3],
                                               const double *points, size_t points_count, uint8_t *told)
{
    return larnt_covered_all(LARNT_OF_SCENE(scene), LARNT_OF_TREE(tree), eye,
                             LARNT_SLICE(const double, points, LARNT_POINT_NUMBERS * points_count),
                             LARNT_SLICE(uint8_t, told, points_count));
}

static inline uint32_t larnt_lines_chop(const double view[22], const larnt_lines *lines, larnt_paths *out)
{
    return larnt_chop(view, LARNT_OF_LINES(lines), LARNT_OF_ROOM(out), &out->points_count, &out->paths);
}

static inline uint32_t larnt_lines_simplify(const larnt_lines *lines, double threshold, larnt_paths *out)
{
    return larnt_simplify(LARNT_OF_LINES(lines), threshold, LARNT_OF_ROOM(out), &out->points_count, &out->paths);
}

static inline uint32_t larnt_scene_draw(const larnt_scene *scene, const double view[22], larnt_paths *out,
                                        larnt_work *work)
{
    return larnt_draw(LARNT_OF_SCENE(scene), view, LARNT_OF_ROOM(out), LARNT_OF_WORK(work), &out->points_count, &out->paths);
}

static inline uint32_t larnt_scene_draw_with(const larnt_scene *scene, const double view[22], double threshold,
                                             larnt_paths *out, larnt_work *work)
{
    return larnt_draw_with(LARNT_OF_SCENE(scene), view, threshold, LARNT_OF_ROOM(out), LARNT_OF_WORK(work),
                           &out->points_count, &out->paths);
}

/* The drawing of some parts (libhost_parts.a). */
static inline uint32_t larnt_scene_draw_range(const larnt_scene *scene, const double view[22], double threshold,
                                              size_t first, size_t many, larnt_paths *out, larnt_work *work)
{
    return larnt_draw_range(LARNT_OF_SCENE(scene), view, threshold, first, many, LARNT_OF_ROOM(out), LARNT_OF_WORK(work),
                            &out->points_count, &out->paths);
}

/* The lines of some parts (libhost_account.a). Of `work` the first two slices are lent, and nothing else is looked at. */
static inline uint32_t larnt_scene_entry_lines(const larnt_scene *scene, const double view[22], size_t first, size_t many,
                                               larnt_paths *out, larnt_work *work)
{
    return larnt_entry_lines(LARNT_OF_SCENE(scene), view, first, many, LARNT_OF_ROOM(out), LARNT_OF_LINE_WORK(work),
                             &out->points_count, &out->paths);
}

/* A word a point (libhost_account.a). */
static inline uint32_t larnt_scene_fates(const larnt_scene *scene, const larnt_tree *tree, const double view[22],
                                         const double *points, size_t points_count, uint32_t *told)
{
    return larnt_fates(LARNT_OF_SCENE(scene), LARNT_OF_TREE(tree), view,
                       LARNT_SLICE(const double, points, LARNT_POINT_NUMBERS * points_count),
                       LARNT_SLICE(uint32_t, told, points_count));
}

/* How many points and paths larnt_scene_draw_with leaves in `out` where that has room for them (libhost_preview.a): the
   counts of `out` are filled, and nothing else of it is looked at. A caller may size it by them: points_room is
   points_count, and paths_room one more than paths (larnt_preview says why). */
static inline uint32_t larnt_scene_preview(const larnt_scene *scene, const double view[22], double threshold,
                                           larnt_paths *out, larnt_work *work)
{
    return larnt_preview(LARNT_OF_SCENE(scene), view, threshold, SIZE_MAX, SIZE_MAX, LARNT_OF_WORK(work),
                         &out->points_count, &out->paths);
}

/* One scene of two (libhost_merge.a): together their entries, points and paths are room enough. */
static inline uint32_t larnt_scene_merge(const larnt_scene *first, const larnt_scene *second, larnt_merged *out)
{
    return larnt_merge(LARNT_OF_SCENE(first), LARNT_OF_SCENE(second), LARNT_OF_MERGED(out), &out->entries,
                       &out->points_count, &out->paths);
}

/* What was merged, to be drawn or asked. */
static inline larnt_scene larnt_merged_scene(const larnt_merged *merged)
{
    larnt_scene scene = {merged->numbers, merged->marks, merged->entries, merged->points, merged->points_count,
                         merged->starts, merged->owners, merged->paths};
    return scene;
}

/* The canonical text (libhost_text.a). */
static inline uint32_t larnt_scene_write(const larnt_scene *scene, const double view[22], uint8_t *text,
                                         size_t text_room, size_t *count)
{
    return larnt_write(LARNT_OF_SCENE(scene), view, LARNT_SLICE(uint8_t, text, text_room), count);
}

/* The outline of one solid. */
static inline uint32_t larnt_lines_outline(uint32_t kind, const double numbers[16], const double eye[3],
                                           const double *placings, size_t placings_count, const double view[22],
                                           larnt_paths *out)
{
    return larnt_outline(kind, numbers, eye, LARNT_SLICE(const double, placings, placings_count), view,
                         LARNT_OF_ROOM(out), &out->points_count, &out->paths);
}

/* `marks` has one byte a path, the yard's first. */
static inline uint32_t larnt_lines_pick(const larnt_lines *yard, const larnt_lines *lines, const double pen[3],
                                        uint8_t *marks, larnt_picked *picked)
{
    return larnt_pick(LARNT_OF_LINES(yard), LARNT_OF_LINES(lines), pen,
                      LARNT_SLICE(uint8_t, marks, (yard->starts ? yard->paths : 0) + (lines->starts ? lines->paths : 0)),
                      &picked->of_lines, &picked->path, &picked->from, &picked->end);
}

#ifdef __cplusplus
}
#endif

#endif
