/* Every step of Sporeferry from C, in the order a host takes them. From the repository's root:
 *   cc -Iinclude examples/all_steps.c target/staticlib/libsporeferry.a -o all_steps && ./all_steps
 * A real host answers from its scanner where this one makes up its answers: the part is the box from 0 to 4. */
#include "sporeferry.h"

#include <stdio.h>
#include <stdlib.h>
#include <string.h>

/* A table of zeros. */
static void *table(size_t length, size_t size) {
    void *room = calloc(length ? length : 1, size);
    if (!room) abort();
    return room;
}

/* Says what a step answered; a refusal ends the run. */
static sf_answer told(const char *step, sf_answer answer) {
    printf("%-15s %u: %llu %llu %llu\n", step, answer.number, (unsigned long long)answer.first,
           (unsigned long long)answer.second, (unsigned long long)answer.third);
    if (answer.number != 0) exit(1);
    return answer;
}

static int inside(const float *point) {
    for (int axis = 0; axis < 3; axis++)
        if (point[axis] <= 0.0f || point[axis] >= 4.0f) return 0;
    return 1;
}

/* Whether a box crosses the surface of the part, as far as this example needs: on one axis at least it
 * holds 0 or 4, and it lies apart from the part on none. */
static int crosses(const float *low, const float *high) {
    int through = 0;
    for (int axis = 0; axis < 3; axis++) {
        if (high[axis] < 0.0f || low[axis] > 4.0f) return 0;
        through |= low[axis] <= 0.0f || high[axis] >= 4.0f;
    }
    return through;
}

int main(void) {
    const sf_bounds box = {0, 0, 0, 4, 4, 4};
    const float c = 1.0f;
    const uint32_t levels = 1;

    sf_planned plan = sf_plan(box, c, levels);
    if (plan.number != 0) return 1;
    printf("%-15s %u x %u x %u roots from %g, unit %g, %u octants\n", "plan", plan.dim_x, plan.dim_y, plan.dim_z,
           (double)plan.origin_x, (double)plan.half, plan.octants);

    /* A rail that is too long along y: the refusal says so. */
    const sf_bounds rail = {0, 0, 0, 4, 70, 4};
    sf_planned refused = sf_plan(rail, c, levels);
    if (refused.number != 4 || refused.value != 1) return 1;
    sf_answer unrefined = sf_refine(rail, c, levels, NULL, 0, NULL, 0);
    if (unrefined.number != 4 || unrefined.first != 1) return 1;

    /* Which octants are crossed: with one level only the roots are asked, each c wide. */
    uint8_t *crossing = table(plan.octants, 1), *split = table(plan.octants, 1);
    for (uint32_t n = 0; n < plan.octants; n++) {
        uint32_t at[3] = {n % plan.dim_x, n / plan.dim_x % plan.dim_y, n / plan.dim_x / plan.dim_y};
        const float origin[3] = {plan.origin_x, plan.origin_y, plan.origin_z};
        float low[3], high[3];
        for (int axis = 0; axis < 3; axis++) {
            low[axis] = origin[axis] + c * (float)at[axis];
            high[axis] = low[axis] + c;
        }
        crossing[n] = (uint8_t)crosses(low, high);
    }
    told("refine", sf_refine(box, c, levels, crossing, plan.octants, split, plan.octants));

    /* Asked with empty tables, the grid says how many cells there are; vertices are never more than 3/4 of them. */
    sf_answer need = sf_grid(box, c, levels, split, plan.octants, NULL, 0, NULL, 0, NULL, 0, NULL, 0);
    if (need.number != 9) return 1;
    size_t cells = need.first, room = cells / 4 * 3;
    uint32_t *grid = table(4 * cells, sizeof *grid), *triples = table(3 * room, sizeof *triples);
    float *points = table(3 * room, sizeof *points);
    uint64_t *keys = table(4 * cells, sizeof *keys);
    sf_answer made = told("grid", sf_grid(box, c, levels, split, plan.octants, grid, 4 * cells, triples, 3 * room,
                                          points, 3 * room, keys, 4 * cells));
    size_t vertices = made.second;
    free(keys);

    /* Which cells are crossed. */
    uint8_t *crossed = table(cells, 1), *probe = table(cells, 1);
    for (size_t n = 0; n < cells; n++) {
        float low[3], high[3];
        for (int axis = 0; axis < 3; axis++) {
            low[axis] = high[axis] = points[3 * (size_t)grid[4 * n] + axis];
            for (int k = 1; k < 4; k++) {
                float x = points[3 * (size_t)grid[4 * n + k] + axis];
                if (x < low[axis]) low[axis] = x;
                if (x > high[axis]) high[axis] = x;
            }
        }
        crossed[n] = (uint8_t)crosses(low, high);
    }

    /* One probe for each group of cells that are not crossed. */
    uint32_t *work = table(cells + 2 * vertices, sizeof *work), *numbers = table(cells, sizeof *numbers);
    float *centroids = table(3 * cells, sizeof *centroids);
    sf_answer groups = told("representatives",
                            sf_representatives(points, 3 * vertices, grid, 4 * cells, crossed, cells, numbers, cells,
                                               centroids, 3 * cells, work, cells + vertices));
    for (size_t n = 0; n < groups.first; n++) probe[numbers[n]] = (uint8_t)inside(centroids + 3 * n);

    /* The mesh: the crossed cells and those inside; then the crossed ones alone, to compare. */
    float *kept_points = table(3 * vertices, sizeof *kept_points);
    uint32_t *kept_cells = table(4 * cells, sizeof *kept_cells);
    told("keep_crust", sf_keep_crust(c, points, 3 * vertices, grid, 4 * cells, crossed, cells, kept_points,
                                     3 * vertices, kept_cells, 4 * cells, work, cells + 2 * vertices));
    sf_answer kept = told("keep_cover", sf_keep_cover(c, points, 3 * vertices, grid, 4 * cells, crossed, cells, probe,
                                                      cells, kept_points, 3 * vertices, kept_cells, 4 * cells, work,
                                                      cells + 2 * vertices));

    /* What became of each cell, and how much of the grid's volume is kept, exactly. */
    uint8_t *marks = table(cells, 1);
    told("marks", sf_marks(c, points, 3 * vertices, grid, 4 * cells, crossed, cells, probe, cells, marks, cells, work,
                           cells + vertices));
    sf_totals nothing = {0, 0, 0, 0, 0};
    sf_covered covered = sf_add_coverage(nothing, triples, 3 * vertices, grid, 4 * cells, marks, cells);
    sf_answer volumes = {covered.number, covered.totals.cells, covered.totals.sixfold_kept, covered.totals.sixfold_all};
    told("add_coverage", volumes);

    size_t points_len = 3 * kept.first, cells_len = 4 * kept.second, work_len = 2 * kept.first;

    told("components",
         sf_components(kept_points, points_len, kept_cells, cells_len, numbers, cells, work, work_len));
    size_t by_faces = 16 * kept.second;
    uint32_t *faces = table(by_faces, sizeof *faces);
    told("face_components",
         sf_face_components(kept_points, points_len, kept_cells, cells_len, numbers, cells, faces, by_faces));
    told("one_piece", sf_one_piece(kept_points, points_len, kept_cells, cells_len, faces, by_faces));

    /* To a file and back, and to a viewer's file and back. */
    float *points_read = table(points_len, sizeof *points_read);
    uint32_t *cells_read = table(cells_len, sizeof *cells_read);
    size_t bytes = 12 + 12 * kept.first + 20 * kept.second;
    uint8_t *file = table(bytes, 1);
    told("write_mesh", sf_write_mesh(kept_points, points_len, kept_cells, cells_len, file, bytes, work, work_len));
    told("read_mesh", sf_read_mesh(file, bytes, points_read, points_len, cells_read, cells_len, work, work_len));
    int same = memcmp(points_read, kept_points, 4 * points_len) == 0 && memcmp(cells_read, kept_cells, 4 * cells_len) == 0;

    need = sf_write_vtk(kept_points, points_len, kept_cells, cells_len, NULL, 0, work, work_len);
    if (need.number != 9) return 1;
    uint8_t *viewed = table(need.first, 1);
    told("write_vtk", sf_write_vtk(kept_points, points_len, kept_cells, cells_len, viewed, need.first, work, work_len));
    memset(cells_read, 0, 4 * cells_len);
    told("read_vtk", sf_read_vtk(viewed, need.first, points_read, points_len, cells_read, cells_len, work, work_len));
    same = same && memcmp(cells_read, kept_cells, 4 * cells_len) == 0;
    printf("%-15s %s\n", "read back", same ? "the same mesh" : "another mesh");

    void *rooms[] = {crossing, split, grid, triples, points, crossed, probe, work, numbers, centroids, faces, kept_points,
                     kept_cells, file, viewed, points_read, cells_read};
    for (size_t n = 0; n < sizeof rooms / sizeof *rooms; n++) free(rooms[n]);
    return same ? 0 : 1;
}
