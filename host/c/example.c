/* Draws a yard with the proved library, as the program `yard` does: forms from standard input, the drawing to
   standard output. From the root of a clone:

       tools/archives host && tools/archives host_preview
       cc -std=c99 -Wall -Wextra -O2 -Ihost host/c/example.c target/staticlib/libhost.a target/staticlib/libhost_preview.a -o target/example
       target/example < examples/silos.yard

   It prints what `yard` prints, so it passes the threshold of a sheet in fine detail itself: larnt_scene_draw has the
   coarser one by default. The reader takes what `yard` takes, and a little more: a form may go over several lines, and
   there is no limit on how much it reads. What a draw works in grows until a preview finds it enough, and the drawing is
   lent the places that this counts, and one start more. */
#include <inttypes.h>
#include <stdio.h>
#include <stdlib.h>
#include <string.h>

#include "larnt.h"

#define FINE 1e-6              /* the threshold of a sheet in fine detail */
#define FIRST 4096             /* room for so many points at first, */
#define MOST ((size_t)1 << 21) /* and at most */
#define DEEPEST 100            /* forms within forms; the library refuses more than 8 */

static void refuse(uint32_t number)
{
    printf("(refused %" PRIu32 ")\n", number);
    exit(1);
}

static void *taken(void *memory)
{
    if (memory == NULL) {
        fprintf(stderr, "no memory\n");
        exit(2);
    }
    return memory;
}

static void *room_for(void *old, size_t count, size_t size)
{
    return taken(realloc(old, count * size));
}

/* Room that is lent to the library, which wants it initialised. */
static void *zeros(size_t count, size_t size)
{
    return taken(calloc(count > 0 ? count : 1, size));
}

#define LIST(type) struct { type *at; size_t count, room; }
#define OPEN(list) ((list).at = room_for(NULL, (list).room = 64, sizeof *(list).at), (list).count = 0)
#define PUSH(list, x) do { \
        if ((list).count == (list).room) \
            (list).at = room_for((list).at, (list).room *= 2, sizeof *(list).at); \
        (list).at[(list).count++] = (x); \
    } while (0)

static LIST(double) numbers, points;
static LIST(uint32_t) marks, owners;
static LIST(size_t) starts;
static LIST(char) text;
static const char *at; /* the next byte of the text */

/* ---- reading */

static char next(void)
{
    while (*at == ' ' || *at == '\n')
        at++;
    return *at;
}

static void bracket(char which)
{
    if (next() != which)
        refuse(1);
    at++;
}

/* The next word, as long as a number or a head can be; of the zeros before a decimal's other digits one is kept. */
static void word(char into[24])
{
    size_t n = 0;
    next();
    while (*at != '\0' && strchr(" \n()", *at) == NULL && n < 23) {
        if (n > 0 && into[n - 1] == '0' && (n == 1 || (n == 2 && into[0] == '-')) && *at >= '0' && *at <= '9')
            n--;
        into[n++] = *at++;
    }
    into[n] = '\0';
}

static uint32_t count(void)
{
    char w[24];
    word(w);
    if (w[0] == '\0' || strspn(w, "0123456789") != strlen(w) || strtod(w, NULL) > 1e6)
        refuse(1);
    return (uint32_t)strtoul(w, NULL, 10);
}

/* A whole decimal of magnitude up to 1,000,000, or # and 16 hexadecimal digits. */
static double number(void)
{
    char w[24];
    double x;
    word(w);
    if (w[0] == '#') {
        uint64_t bits = strtoull(w + 1, NULL, 16);
        if (strlen(w) != 17 || strspn(w + 1, "0123456789ABCDEFabcdef") != 16)
            refuse(1);
        memcpy(&x, &bits, sizeof x);
        return x;
    }
    const char *digits = w + (w[0] == '-');
    x = strtod(digits, NULL);
    if (*digits == '\0' || strspn(digits, "0123456789") != strlen(digits) || x > 1e6)
        refuse(1);
    return w[0] == '-' && x != 0 ? -x : x;
}

static const struct { const char *head; uint32_t kind; int measures, parts; } forms[] = {
    {"sphere", LARNT_SPHERE, 4, 0}, {"cylinder", LARNT_CYLINDER, 3, 0}, {"cone", LARNT_CONE, 2, 0},
    {"cube", LARNT_CUBE, 6, 0}, {"triangle", LARNT_TRIANGLE, 9, 0}, {"place", LARNT_PLACED, 16, 1},
    {"cut", LARNT_CUT, 0, 2}, {"closed-cylinder", LARNT_CLOSED_CYLINDER, 3, 0}, {"closed-cone", LARNT_CLOSED_CONE, 2, 0},
};

/* The (line ..) forms of a round solid at an entry. */
static void lines(uint32_t entry)
{
    char w[24];
    while (next() == '(') {
        bracket('(');
        word(w);
        if (strcmp(w, "line") != 0)
            refuse(1);
        PUSH(starts, points.count / 3);
        PUSH(owners, entry);
        while (next() != ')')
            for (int k = 0; k < 3; k++)
                PUSH(points, number());
        bracket(')');
    }
}

/* A form becomes an entry, after those of its parts; answers which. */
static uint32_t form(int depth)
{
    char w[24];
    double row[LARNT_ENTRY_NUMBERS] = {0};
    uint32_t detail = 0, parts[2] = {0, 0}, entry;
    size_t f = 0;

    if (depth > DEEPEST)
        refuse(LARNT_REFUSED_PARTS);
    bracket('(');
    word(w);
    while (f < sizeof forms / sizeof *forms && strcmp(w, forms[f].head) != 0)
        f++;
    if (f == sizeof forms / sizeof *forms)
        refuse(1);
    uint32_t kind = forms[f].kind;
    if (kind == LARNT_CUBE || kind == LARNT_CUT) /* a cube's stripes, a cut's operation */
        detail = count();
    for (int k = 0; k < forms[f].measures; k++)
        row[k] = number();
    int striped = kind == LARNT_CYLINDER || kind == LARNT_CONE || kind >= LARNT_CLOSED_CYLINDER;
    if (striped && next() != '(' && next() != ')')
        detail = count();
    for (int k = 0; k < forms[f].parts; k++)
        parts[k] = form(depth + 1);
    entry = (uint32_t)(marks.count / 4);
    for (int k = 0; k < LARNT_ENTRY_NUMBERS; k++)
        PUSH(numbers, row[k]);
    PUSH(marks, kind);
    PUSH(marks, detail);
    PUSH(marks, parts[0]);
    PUSH(marks, parts[1]);
    if (striped || kind == LARNT_SPHERE)
        lines(entry);
    bracket(')');
    return entry;
}

/* (view width height step, eye, matrix) in the order of the library: matrix, eye, width, height, step. */
static void read_view(double view[LARNT_VIEW_NUMBERS])
{
    char w[24];
    bracket('(');
    word(w);
    if (strcmp(w, "view") != 0)
        refuse(1);
    for (int k = 0; k < LARNT_VIEW_NUMBERS; k++)
        view[k < 3 ? 19 + k : k < 6 ? 13 + k : k - 6] = number();
    bracket(')');
}

/* ---- drawing */

static void say(const larnt_paths *drawing)
{
    printf("(drawing %zu)\n", drawing->paths);
    for (size_t i = 0; i < drawing->paths; i++) {
        size_t end = i + 1 < drawing->paths ? drawing->starts[i + 1] : drawing->points_count;
        printf("(path");
        for (size_t k = 3 * drawing->starts[i]; k < 3 * end; k++) {
            double x = drawing->points[k];
            uint64_t bits;
            memcpy(&bits, &x, sizeof bits);
            printf("%s#%016" PRIX64 "%s", k % 3 == 0 ? " (" : " ", x == 0 ? 0 : bits, k % 3 == 2 ? ")" : "");
        }
        printf(")\n");
    }
}

/* Draws, working in room for n points; answers as the library does. */
static uint32_t draw(const larnt_scene *scene, const double view[LARNT_VIEW_NUMBERS], size_t n)
{
    larnt_paths drawing = {0};
    larnt_work work = {.room = n, .tree = {.nodes = larnt_tree_nodes(scene->entries)}};
    uint32_t answer;

    work.work = zeros(LARNT_WORK_SLICES * LARNT_POINT_NUMBERS * n, sizeof *work.work);
    work.work_starts = zeros(LARNT_WORK_SLICES * n, sizeof *work.work_starts);
    work.chopped = zeros(LARNT_POINT_NUMBERS * n, sizeof *work.chopped);
    work.chopped_starts = zeros(n, sizeof *work.chopped_starts);
    work.tree.boxes = zeros(LARNT_NODE_NUMBERS * work.tree.nodes, sizeof *work.tree.boxes);
    work.tree.marks = zeros(LARNT_NODE_MARKS * work.tree.nodes, sizeof *work.tree.marks);
    work.tree.order = zeros(work.tree.nodes, sizeof *work.tree.order);
    answer = larnt_scene_preview(scene, view, FINE, &drawing, &work);
    if (answer == LARNT_DONE) {
        drawing.points_room = drawing.points_count;
        drawing.paths_room = drawing.paths + 1; /* at step 0 a path that vanishes has a start until it does */
        drawing.points = zeros(LARNT_POINT_NUMBERS * drawing.points_room, sizeof *drawing.points);
        drawing.starts = zeros(drawing.paths_room, sizeof *drawing.starts);
        answer = larnt_scene_draw_with(scene, view, FINE, &drawing, &work);
    }
    if (answer == LARNT_DONE)
        say(&drawing);
    free(drawing.points), free(drawing.starts), free(work.work), free(work.work_starts), free(work.chopped);
    free(work.chopped_starts), free(work.tree.boxes), free(work.tree.marks), free(work.tree.order);
    return answer;
}

int main(void)
{
    double view[LARNT_VIEW_NUMBERS];
    uint32_t answer = LARNT_REFUSED_ROOM;
    int c;

    OPEN(numbers), OPEN(points), OPEN(marks), OPEN(owners), OPEN(starts), OPEN(text);
    while ((c = getchar()) != EOF)
        PUSH(text, (char)c);
    PUSH(text, '\0');
    at = text.at;
    read_view(view);
    while (next() != '\0')
        (void)form(1);
    if (at != text.at + text.count - 1) /* a byte 0 within the text */
        refuse(1);
    larnt_scene scene = {numbers.at, marks.at, marks.count / LARNT_ENTRY_MARKS, points.at, points.count / LARNT_POINT_NUMBERS,
                         starts.at, owners.at, starts.count};
    for (size_t n = FIRST; answer == LARNT_REFUSED_ROOM && n <= MOST; n *= 2)
        answer = draw(&scene, view, n);
    if (answer != LARNT_DONE)
        refuse(answer);
    return 0;
}
