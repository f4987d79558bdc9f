/* Each call on structs of host/larnt.h against the call under it: the same answer, and the same left in what is lent.
   Prints how many were compared; ends with 1 at the first difference.

       cc -std=c99 -Wall -Wextra -O2 -Ihost host/c/structs.c target/staticlib/libhost.a target/staticlib/libhost_plotter.a target/staticlib/libhost_preview.a target/staticlib/libhost_parts.a target/staticlib/libhost_account.a target/staticlib/libhost_merge.a target/staticlib/libhost_text.a -o target/structs && target/structs */
#include <stdio.h>
#include <stdlib.h>
#include <string.h>

#include "larnt.h"

#define ROOM 512
#define NODES 16

static int compared;

static void same(const char *what, uint32_t a, uint32_t b, const void *x, const void *y, size_t size)
{
    compared++;
    if (a != b || memcmp(x, y, size) != 0) {
        printf("%s differs: %u and %u\n", what, (unsigned)a, (unsigned)b);
        exit(1);
    }
}

/* A wall, and a ball behind it with a line, which is placed; a block less a bay. */
static const double numbers[6 * LARNT_ENTRY_NUMBERS] = {
    [0] = -4, 0, 0, 4, 1, 5, [16] = 0, 0, 0, 1, [32] = 1, 0, 0, 0, 0, 1, 0, 5, 0, 0, 1, 2, 0, 0, 0, 1,
    [48] = 5, 0, 0, 9, 3, 4, [64] = 6, -1, 0, 7, 1, 4,
};
static const uint32_t marks[6 * LARNT_ENTRY_MARKS] = {
    LARNT_CUBE, 1, 0, 0, LARNT_SPHERE, 0, 0, 0, LARNT_PLACED, 0, 1, 0,
    LARNT_CUBE, 3, 0, 0, LARNT_CUBE, 1, 0, 0, LARNT_CUT, LARNT_DIFFERENCE, 3, 4,
};
static const double points[] = {0, 0, 1, 0, 0, 4, 1, 0, 4, 2, 0, 1, 2, 0, 2};
static const size_t starts[] = {0, 3};
static const uint32_t owners[] = {1, 1};
static const double view[LARNT_VIEW_NUMBERS] = {1, 0, 0, 0, 0, 0, 2, -2, 0, -1, 0, 0, 0, 1, 0, 20, 0, -20, 2, 1200, 800, 40};
static const double eye[3] = {0, -20, 2}, behind[3] = {0, 3, 2}, ray[6] = {0, -20, 2, 0, 1, 0};

#define SCENE numbers, 96, marks, 24, points, 15, starts, 2, owners, 2
static const larnt_scene scene = {numbers, marks, 6, points, 5, starts, owners, 2};

/* What a draw fills, twice: by the struct and by the call. */
static struct filled {
    double points[3 * ROOM], work[24 * ROOM], chopped[3 * ROOM], boxes[6 * NODES];
    size_t starts[ROOM], work_starts[8 * ROOM], chopped_starts[ROOM], counts[2];
    uint32_t marks[3 * NODES], order[NODES];
} a, b;

static larnt_paths room(struct filled *f)
{
    larnt_paths made = {f->points, ROOM, f->starts, ROOM, 77, 77};
    memset(f, 1, sizeof *f);
    return made;
}

static void drawn(const char *what, uint32_t x, uint32_t y, const larnt_paths *out)
{
    a.counts[0] = out->points_count, a.counts[1] = out->paths;
    same(what, x, y, &a, &b, sizeof a);
}

static void draws(void)
{
    larnt_tree tree = {a.boxes, a.marks, a.order, NODES};
    larnt_work work = {a.work, a.work_starts, a.chopped, a.chopped_starts, ROOM, tree};
    uint32_t x, y;
#define WORKED b.work, 24 * ROOM, b.work_starts, 8 * ROOM, b.chopped, 3 * ROOM, b.chopped_starts, ROOM, b.boxes, \
               6 * NODES, b.marks, 3 * NODES, b.order, NODES, &b.counts[0], &b.counts[1]
#define WORK b.points, 3 * ROOM, b.starts, ROOM, WORKED
    room(&b);
    larnt_paths out = room(&a);
    x = larnt_scene_draw_with(&scene, view, 1e-6, &out, &work), y = larnt_draw_with(SCENE, view, 1e-6, WORK);
    drawn("draw_with", x, y, &out);
    if (x != LARNT_DONE || out.paths < 8 || out.points_count <= out.paths)
        printf("the draw has %zu paths\n", out.paths), exit(1);
    room(&b), out = room(&a);
    x = larnt_scene_draw_with(&scene, view, -1, &out, &work), y = larnt_draw_with(SCENE, view, -1, WORK);
    drawn("draw_with, refused", x, y, &out);
    room(&b), out = room(&a);
    x = larnt_scene_draw(&scene, view, &out, &work), y = larnt_draw(SCENE, view, WORK);
    drawn("draw", x, y, &out);

    /* the range of all is the draw; that of the second part alone has fewer paths */
    static struct filled whole;
    whole = a;
    room(&b), out = room(&a);
    x = larnt_scene_draw_range(&scene, view, 1e-4, 0, SIZE_MAX, &out, &work), y = larnt_draw_range(SCENE, view, 1e-4, 0, SIZE_MAX, WORK);
    drawn("draw_range", x, y, &out);
    same("draw_range of all", x, LARNT_DONE, &a, &whole, sizeof a);
    room(&b), out = room(&a);
    x = larnt_scene_draw_range(&scene, view, 1e-4, 2, 1, &out, &work), y = larnt_draw_range(SCENE, view, 1e-4, 2, 1, WORK);
    drawn("draw_range of one", x, y, &out);
    same("draw_range's paths", 0 < out.paths && out.paths < whole.counts[1], true, "", "", 0);
    room(&b), out = room(&a);
    x = larnt_scene_draw_range(&scene, view, -1, 0, 1, &out, &work), y = larnt_draw_range(SCENE, view, -1, 0, 1, WORK);
    drawn("draw_range, refused", x, y, &out);

    /* the lines that are put to the fourth step are more than the drawing's */
    larnt_work lines_work = {a.work, a.work_starts, NULL, NULL, ROOM, {NULL, NULL, NULL, 0}};
#define LINE_WORK b.points, 3 * ROOM, b.starts, ROOM, b.work, 24 * ROOM, b.work_starts, 8 * ROOM, &b.counts[0], &b.counts[1]
    room(&b), out = room(&a);
    x = larnt_scene_entry_lines(&scene, view, 1, 2, &out, &lines_work), y = larnt_entry_lines(SCENE, view, 1, 2, LINE_WORK);
    drawn("entry_lines", x, y, &out);
    same("entry_lines' points", x == LARNT_DONE && out.points_count > out.paths && out.paths > 2, true, "", "", 0);
    room(&b), out = room(&a);
    x = larnt_scene_entry_lines(&scene, view, 3, 1, &out, &lines_work), y = larnt_entry_lines(SCENE, view, 3, 1, LINE_WORK);
    drawn("entry_lines of none", x, y, &out);
    same("entry_lines of none: points", x, LARNT_DONE, &out.points_count, &(size_t){0}, sizeof(size_t));
    out.points_room = 3;
    same("entry_lines, no room", larnt_scene_entry_lines(&scene, view, 0, 1, &out, &lines_work), LARNT_REFUSED_ROOM, "", "", 0);

    room(&b), out = room(&a);
    larnt_scene_draw(&scene, view, &out, &work), larnt_draw(SCENE, view, WORK);
    /* the preview has the draw's counts, and looks at no room for them */
    size_t points_count = out.points_count, paths_count = out.paths;
    room(&b), room(&a);
    larnt_paths none = {NULL, 0, NULL, 0, 77, 77};
    x = larnt_scene_preview(&scene, view, 1e-4, &none, &work), y = larnt_preview(SCENE, view, 1e-4, SIZE_MAX, SIZE_MAX, WORKED);
    drawn("preview", x, y, &none);
    same("preview's points", x, LARNT_DONE, &none.points_count, &points_count, sizeof points_count);
    same("preview's paths", x, LARNT_DONE, &none.paths, &paths_count, sizeof paths_count);
    room(&b), room(&a);
    x = larnt_scene_preview(&scene, view, -1, &none, &work), y = larnt_preview(SCENE, view, -1, SIZE_MAX, SIZE_MAX, WORKED);
    drawn("preview, refused", x, y, &none);
}

/* What a merge fills, twice. */
static struct made {
    double numbers[12 * LARNT_ENTRY_NUMBERS], points[30];
    size_t starts[4], counts[3];
    uint32_t marks[12 * LARNT_ENTRY_MARKS], owners[4];
} c, d;

static void merged(const char *what, uint32_t x, uint32_t y, const larnt_merged *out)
{
    c.counts[0] = out->entries, c.counts[1] = out->points_count, c.counts[2] = out->paths;
    same(what, x, y, &c, &d, sizeof c);
}

static void merges(void)
{
    larnt_merged out = {c.numbers, c.marks, 12, c.points, 10, c.starts, c.owners, 4, 77, 77, 77};
    const larnt_scene empty = {NULL, NULL, 9, NULL, 9, NULL, NULL, 9};
    uint32_t x, y;
#define MADE(entries) d.numbers, 16 * entries, d.marks, 4 * entries, d.points, 30, d.starts, 4, d.owners, 4, &d.counts[0], &d.counts[1], &d.counts[2]
    memset(&c, 1, sizeof c), memset(&d, 1, sizeof d);
    x = larnt_scene_merge(&scene, &scene, &out), y = larnt_merge(SCENE, SCENE, MADE(12));
    merged("merge", x, y, &out);
    larnt_scene both = larnt_merged_scene(&out);
    same("merge's entries", x, LARNT_DONE, &both.entries, &(size_t){12}, sizeof both.entries);
    same("merge's second part", both.marks[4 * 11 + 3], 10, "", "", 0);
    same("merge's last owner", both.owners[both.paths - 1], 7, "", "", 0);
    memset(&c, 1, sizeof c), memset(&d, 1, sizeof d);
    x = larnt_scene_merge(&empty, &scene, &out), y = larnt_merge(numbers, 0, marks, 0, points, 0, starts, 0, owners, 0, SCENE, MADE(12));
    merged("merge, empty", x, y, &out);
    same("merge, empty: entries", x, LARNT_DONE, &out.entries, &scene.entries, sizeof out.entries);
    memset(&c, 1, sizeof c), memset(&d, 1, sizeof d);
    out.entries_room = 11;
    x = larnt_scene_merge(&scene, &scene, &out), y = larnt_merge(SCENE, SCENE, MADE(11));
    merged("merge, no room", x, y, &out);
    same("merge, no room: 13", x, LARNT_REFUSED_ROOM, "", "", 0);
}

static void paths(void)
{
    const larnt_lines lines = {points, 5, starts, 2}, none = {NULL, 9, NULL, 9};
    uint32_t x, y;
#define LINES points, 15, starts, 2
#define OUT b.points, 3 * ROOM, b.starts, ROOM, &b.counts[0], &b.counts[1]
    room(&b);
    larnt_paths out = room(&a);
    x = larnt_lines_chop(view, &lines, &out), y = larnt_chop(view, LINES, OUT);
    drawn("chop", x, y, &out);
    if (out.paths != 2 || out.points_count <= 5)
        printf("the chop has %zu points\n", out.points_count), exit(1);
    room(&b), out = room(&a);
    x = larnt_lines_simplify(&lines, 5, &out), y = larnt_simplify(LINES, 5, OUT);
    drawn("simplify", x, y, &out);
    room(&b), out = room(&a);
    x = larnt_lines_simplify(&none, 5, &out), y = larnt_simplify(points, 0, starts, 0, 5, OUT);
    drawn("simplify, empty", x, y, &out);
    larnt_paths full = {NULL, 9, NULL, 9, 77, 77};
    same("simplify, no room", larnt_lines_simplify(&lines, 5, &full), LARNT_REFUSED_ROOM, &full.points_count, &full.paths, sizeof full.paths);

    const double ball[16] = {0, 0, 0, 1}, placed[16] = {1, 0, 0, 0, 0, 1, 0, 0, 0, 0, 1, 0, 0, 0, 0, 1};
    room(&b), out = room(&a);
    x = larnt_lines_outline(LARNT_SPHERE, ball, eye, placed, 16, view, &out), y = larnt_outline(LARNT_SPHERE, ball, eye, placed, 16, view, OUT);
    drawn("outline", x, y, &out);
    if (out.paths != 1 || out.points_count < 4)
        printf("the outline has %zu points\n", out.points_count), exit(1);

    uint8_t drawn_a[2] = {0}, drawn_b[2] = {0};
    larnt_picked picked, wanted;
    for (int k = 0; k < 3; k++) { /* the third finds both used up */
        memset(&picked, 0, sizeof picked), memset(&wanted, 0, sizeof wanted);
        x = larnt_lines_pick(&lines, &none, behind, drawn_a, &picked);
        y = larnt_pick(LINES, points, 0, starts, 0, behind, drawn_b, 2, &wanted.of_lines, &wanted.path, &wanted.from, &wanted.end);
        same("pick", x, y, &picked, &wanted, sizeof picked);
        same("pick's marks", x, k < 2 ? LARNT_DONE : LARNT_REFUSED_USED_UP, drawn_a, drawn_b, sizeof drawn_a);
    }
}

static void questions(void)
{
    static double inverses[2][16 * LARNT_ENTRIES], boxes[2][6 * LARNT_ENTRIES];
    static uint32_t listed[2][LARNT_ENTRIES];
    size_t n[2];
    double t[2];
    bool ok[2];
    uint32_t x, y, entry[2];
    uint8_t told[2][2];
    const double two[6] = {0, 3, 2, 0, 5, 9};
    larnt_tree tree = {a.boxes, a.marks, a.order, larnt_tree_nodes(6)};
#define TREE a.boxes, 78, a.marks, 39, a.order, 13

    x = larnt_scene_check(&scene, inverses[0], boxes[0], listed[0], &n[0]), y = larnt_check(SCENE, inverses[1], boxes[1], listed[1], &n[1]);
    same("check", x, y, &n[0], &n[1], sizeof *n);
    same("check's inverses", x, LARNT_DONE, inverses[0], inverses[1], sizeof *inverses);
    same("check's boxes", x, LARNT_DONE, boxes[0], boxes[1], sizeof *boxes);
    same("check's list", n[0] == 3, true, listed[0], listed[1], sizeof *listed);
    x = larnt_scene_own_hit(&scene, 0, ray, &t[0], &ok[0]), y = larnt_own_hit(SCENE, 0, ray, &t[1], &ok[1]);
    same("own_hit", x, y, &t[0], &t[1], sizeof *t);
    same("own_hit's ok", ok[0], true, &ok[0], &ok[1], sizeof *ok);
    x = larnt_scene_own_contains(&scene, 3, eye, 30, &ok[0]), y = larnt_own_contains(SCENE, 3, eye, 30, &ok[1]);
    same("own_contains", x, y, &ok[0], &ok[1], sizeof *ok);

    room(&a), room(&b);
    x = larnt_scene_build(&scene, &tree, &a.counts[0]), y = larnt_build(SCENE, b.boxes, 78, b.marks, 39, b.order, 13, &b.counts[0]);
    same("build", x, y, &a, &b, sizeof a);
    x = larnt_scene_intersect(&scene, &tree, ray, &t[0], &ok[0], &entry[0]), y = larnt_intersect(SCENE, TREE, ray, &t[1], &ok[1], &entry[1]);
    same("intersect", x, y, &t[0], &t[1], sizeof *t);
    same("intersect's entry", ok[0], ok[1], &entry[0], &entry[1], sizeof *entry);
    x = larnt_scene_visible(&scene, &tree, eye, behind, &ok[0]), y = larnt_visible(SCENE, TREE, eye, behind, &ok[1]);
    same("visible", x, y, &ok[0], &ok[1], sizeof *ok);
    x = larnt_scene_occluder(&scene, &tree, eye, behind, &entry[0]), y = larnt_occluder(SCENE, TREE, eye, behind, &entry[1]);
    same("occluder", x, y, &entry[0], &entry[1], sizeof *entry);
    same("occluder's wall", entry[0], 0, "", "", 0);
    x = larnt_scene_covered(&scene, &tree, eye, behind, &ok[0]), y = larnt_covered(SCENE, TREE, eye, behind, &ok[1]);
    same("covered", x, y, &ok[0], &ok[1], sizeof *ok);
    x = larnt_scene_covered_all(&scene, &tree, eye, two, 2, told[0]), y = larnt_covered_all(SCENE, TREE, eye, two, 6, told[1], 2);
    same("covered_all", x, y, told[0], told[1], sizeof *told);
    same("covered_all's bytes", told[0][0] * 10 + told[0][1], 21, "", "", 0);
    static uint32_t words[2][3];
    const double three[9] = {0, 3, 2, 0, 5, 9, 0, -30, 2};
    x = larnt_scene_fates(&scene, &tree, view, three, 3, words[0]), y = larnt_fates(SCENE, TREE, view, three, 9, words[1], 3);
    same("fates", x, y, words[0], words[1], sizeof *words);
    same("fates' words", x, LARNT_DONE, words[0], ((uint32_t[3]){0, LARNT_FATE_VISIBLE, LARNT_FATE_CLIPPED}), sizeof *words);
    same("fates, not in threes", larnt_fates(SCENE, TREE, view, three, 8, words[1], 3), LARNT_REFUSED_LENGTHS, words[1], ((uint32_t[3]){0}), sizeof *words);
    same("fates, none", larnt_scene_fates(&scene, &tree, view, NULL, 9, NULL), LARNT_DONE, "", "", 0);
    same("covered_all, none", larnt_scene_covered_all(&scene, &tree, eye, NULL, 9, NULL), LARNT_DONE, "", "", 0);

    /* 8 for the eye comes before 9 for the point, so the two are told apart */
    const double far[3] = {2e6, 0, 0};
    same("visible, refused", larnt_scene_visible(&scene, &tree, far, behind, &ok[0]), LARNT_REFUSED_VIEW, "", "", 0);
    same("occluder, refused", larnt_scene_occluder(&scene, &tree, far, behind, &entry[0]), LARNT_REFUSED_VIEW, "", "", 0);
    same("covered, refused", larnt_scene_covered(&scene, &tree, far, behind, &ok[0]), LARNT_REFUSED_VIEW, "", "", 0);
    const larnt_scene empty = {NULL, NULL, 9, NULL, 9, NULL, NULL, 9};
    same("check, empty", larnt_scene_check(&empty, inverses[0], boxes[0], listed[0], &n[0]), LARNT_DONE, "", "", 0);
    same("check, empty: count", (uint32_t)n[0], 0, "", "", 0);
}

static void written(void)
{
    static uint8_t text[2][4096];
    size_t n[2] = {77, 77};
    uint32_t x, y;
    x = larnt_scene_write(&scene, view, text[0], sizeof text[0], &n[0]), y = larnt_write(SCENE, view, text[1], sizeof text[1], &n[1]);
    same("write", x, y, text[0], text[1], sizeof text[0]);
    same("write's count", memcmp(text[0], "(view #", 7) == 0, true, &n[0], &n[1], sizeof *n);
    same("write, no room", larnt_scene_write(&scene, view, NULL, 4096, &n[0]), LARNT_REFUSED_ROOM, "", "", 0);
}

int main(void)
{
    draws();
    written();
    merges();
    paths();
    questions();
    printf("%d compared\n", compared);
    return 0;
}
