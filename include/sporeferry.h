/* Sporeferry: the C functions of libsporeferry.a (x86-64). Build it with `tools/archive`.
 *
 * Every function answers for anything it is handed; none keeps state, allocates, or calls back.
 *
 * What the host owes
 *   - A pointer and its length name memory that is the host's for the whole call. A length counts elements, not bytes.
 *     (NULL, 0) is an empty table.
 *   - No two tables of one call overlap.
 *   - Tables of numbers are aligned as C aligns them.
 *   Nothing else: contents may be anything, lengths too.
 *
 * Tables
 *   points     three floats to a point. They are copied as bit patterns, NaN patterns too.
 *   cells      four numbers to a cell, each the place of a point, counted from 0.
 *   triples    three whole numbers to a vertex: its place in units of `half` from the origin.
 *   crossing   one byte per octant or per cell: 1 if the surface crosses it, else 0.
 *   split      one byte per octant: 1 if it has children, else 0.
 *   probe      one byte per cell: 1 if its centroid lies inside the part, else 0.
 *   marks      one byte per cell: 0 not marked, 1 kept or exchanged, 2 dropped.
 *   work       scratch room. What it holds before a call does not matter.
 *   Octants of levels L down to 1 stand in one table, level L first; within a level octant (i, j, k) is at
 *   i + j*nx + k*nx*ny. For L = 0 the table is empty.
 *
 * Answers
 *   `number` is 0 for an answer, else the number of the refusal. On an answer `first`, `second`, `third` hold its
 *   values, on a 9 the counts that are needed, on a 4 of refine and grid `first` is what the plan's 4 names, else 0.
 *   Values that a function does not name are 0.
 *   The lowest number that applies is given, but 17 stands between 8 and 9; the two readers have an order of their own.
 *
 *    1  the cell size c is zero, negative, NaN or infinite
 *    2  a bound of the box is not finite, or a min stands above its max
 *    3  levels above 5
 *    4  too large: octree dims above 64, lattice dims above 128, more than 1,048,576 octants, more than 536,870,912
 *       points or cells (whole entries are counted); or a computed domain bound, origin, extent or far corner is not
 *       finite. In plan, refine and grid it names the first axis that breaks its bound or has such a value, 0, 1 or 2
 *       for x, y or z, or 3 where only the octants are too many
 *    5  an input table has the wrong length, or a work table is too short (in the grid and the readers: 9)
 *    6  a byte above 1 in a table of answers or in a split table, or above 2 in a table of marks
 *    7  the split table has a split octant under an unsplit one, or touching leaves more than one level apart
 *    8  a cell names a point that is not there
 *    9  a result table is too short (in the grid and the readers: or the work)
 *   10  nothing kept
 *   11  the file ends inside a count or a section
 *   12  bytes after the last section
 *   13  the component numbers of the file are not those the writer gives
 *   14  a VTK file departs from the layout
 *   15  a cell of a VTK file is not of type 10, or not led by a four
 *   16  a coordinate above 4,096 in a table of triples, or a total that does not fit 64 bits
 *   17  a cell names one point twice
 *
 * Result and work tables
 *   A result table is as it was lent after every refusal: there is never a part of a result. After an answer its first
 *   entries are the result and those past it are as lent. A result table may be longer than needed, also by a part of
 *   an entry; an input table may not.
 *   "work is zero" below means: exactly the entries needed are 0, those past them as lent. Where it is not said, work
 *   is as lent. */
#ifndef SPOREFERRY_H
#define SPOREFERRY_H

#include <stddef.h>
#include <stdint.h>

#ifdef __cplusplus
extern "C" {
#endif

typedef struct {
    float min_x, min_y, min_z, max_x, max_y, max_z;
} sf_bounds;

typedef struct {
    uint32_t number;                   /* 0, or 1 to 4; on a refusal every other field is 0, but for value on a 4 */
    uint32_t value;                    /* on a 4: the first axis 0, 1, 2 that is at fault, or 3 where only N is; else 0 */
    float origin_x, origin_y, origin_z; /* where the triple (0, 0, 0) stands */
    float half;                        /* the unit: half the width of a finest octant or lattice cube */
    uint32_t dim_x, dim_y, dim_z;      /* roots along each axis; for levels 0, units along each axis */
    uint32_t octants;                  /* N: the length of the crossing and split tables; 0 for levels 0 */
} sf_planned;

typedef struct {
    uint32_t number;
    uint64_t first, second, third;
} sf_answer;

/* The plan of a grid over the box, loosened by c: origin, unit and dimensions. levels 0 is the lattice, 1 to 5 an
 * octree whose roots are c wide. A vertex v stands at origin + v * half, in float.
 * Refusals 1, 2, 3, 4, the 4 with value. It takes no table. */
sf_planned sf_plan(sf_bounds box, float c, uint32_t levels);

/* Which octants to split: those crossed whose ancestors are all crossed, and then the fewest more so that leaves that
 * touch, by face, edge or corner, are at most one level apart.
 * Answer: first = how many are split; split[0..N) is the split table.
 * Refusals: 1 to 4 as the plan, on a 4 first = its value; 5 crossing_len is not N; 6 a crossing byte above 1, read or not; 9 split_len below N,
 * first = N. */
sf_answer sf_refine(sf_bounds box, float c, uint32_t levels,
                    const uint8_t *crossing, size_t crossing_len,
                    uint8_t *split, size_t split_len);

/* The cells and vertices of the plan's grid under a split table (empty for levels 0).
 * Answer: first = cells, second = vertices; the cells, and each vertex's triple and point. Work is zero.
 * Work needed: 4 * cells entries.
 * Refusals: 1 to 4 as the plan, on a 4 first = its value; 5 split_len is not N; 6 a split byte above 1; 7 a split table that is no graded
 * octree; 9 with first = cells, second = 0 if the room for cells or the work is short; else 9 with first = cells,
 * second = vertices if the room for triples or points is short, and then work is zero. To size the tables, ask with
 * empty ones first. */
sf_answer sf_grid(sf_bounds box, float c, uint32_t levels,
                  const uint8_t *split, size_t split_len,
                  uint32_t *cells, size_t cells_len,
                  uint32_t *triples, size_t triples_len,
                  float *points, size_t points_len,
                  uint64_t *work, size_t work_len);

/* The cells whose centroids are to be probed. Cells not crossed are joined through shared vertices, step by step; each
 * group is stood for by its highest-numbered cell.
 * Answer: first = how many; their numbers, ascending, and the centroid of each (three floats; a computed NaN is
 * 7FC00000 hexadecimal). Work is zero.
 * Work needed: cells + points entries.
 * Refusals: 4; 5 points_len not by 3, cells_len not by 4, crossing_len not one per cell, or work short; 6 a crossing
 * byte above 1; 8; 9 numbers or centroids short, first = how many, and then work is zero. */
sf_answer sf_representatives(const float *points, size_t points_len,
                             const uint32_t *cells, size_t cells_len,
                             const uint8_t *crossing, size_t crossing_len,
                             uint32_t *numbers, size_t numbers_len,
                             float *centroids, size_t centroids_len,
                             uint32_t *work, size_t work_len);

/* The mesh of the crossed cells and of those inside. A group of cells that are not crossed takes the probe byte of its
 * highest-numbered cell; the other probe bytes decide nothing. A cell whose absolute volume is strictly below
 * c*c*c*1.0e-6 is dropped; one with a negative volume has its vertices 0 and 1 exchanged; one whose volume is NaN stays
 * as it is. Points are numbered by first use.
 * Answer: first = points, second = cells, third = dropped; the mesh. Work is zero.
 * Work needed: cells + 2 * points entries.
 * Refusals: 1; 4; 5 points_len not by 3, cells_len not by 4, crossing_len or probe_len not one per cell, or work short;
 * 6 a crossing or probe byte above 1; 8; 9 kept_points or kept_cells short, first = points, second = cells, and then
 * work is zero; 10 nothing kept, and then work is zero. */
sf_answer sf_keep_cover(float c,
                        const float *points, size_t points_len,
                        const uint32_t *cells, size_t cells_len,
                        const uint8_t *crossing, size_t crossing_len,
                        const uint8_t *probe, size_t probe_len,
                        float *kept_points, size_t kept_points_len,
                        uint32_t *kept_cells, size_t kept_cells_len,
                        uint32_t *work, size_t work_len);

/* The same for the crossed cells alone: no probe table is taken, so none can be refused. */
sf_answer sf_keep_crust(float c,
                        const float *points, size_t points_len,
                        const uint32_t *cells, size_t cells_len,
                        const uint8_t *crossing, size_t crossing_len,
                        float *kept_points, size_t kept_points_len,
                        uint32_t *kept_cells, size_t kept_cells_len,
                        uint32_t *work, size_t work_len);

/* What sf_keep_cover makes of each cell. With a probe table of zeros, what sf_keep_crust does.
 * Answer: first = kept, second = dropped; marks[0..cells): 0 not marked, 1 kept or exchanged, 2 dropped. Work is zero.
 * Work needed: cells + points entries.
 * Refusals: 1; 4; 5 points_len not by 3, cells_len not by 4, crossing_len or probe_len not one per cell, or work short;
 * 6 a crossing or probe byte above 1; 8; 9 marks short, first = cells, and then work is zero. Nothing kept is an answer
 * with first = 0. */
sf_answer sf_marks(float c,
                   const float *points, size_t points_len,
                   const uint32_t *cells, size_t cells_len,
                   const uint8_t *crossing, size_t crossing_len,
                   const uint8_t *probe, size_t probe_len,
                   uint8_t *marks, size_t marks_len,
                   uint32_t *work, size_t work_len);

/* Totals over grids: cells, those marked 1 and 2, and six times the volume of those marked 1 and of all, in whole units. */
typedef struct {
    uint64_t cells, kept, dropped, sixfold_kept, sixfold_all;
} sf_totals;

typedef struct {
    uint32_t number;
    sf_totals totals;
} sf_covered;

/* Adds one grid to the totals: six times the absolute volume of each cell, from the triples alone, exactly. One call a
 * grid; the order of the calls does not matter. For an octree's grid all cells add up to 6*X*Y*Z, X, Y, Z its dims times
 * 2*2^levels; for a lattice's to 4 a cell. Grids of different c or levels have different units, and their whole numbers
 * are added all the same; a grid added twice counts twice.
 * Answer: the new totals.
 * Refusals: 4; 5 triples_len not by 3, cells_len not by 4, or marks_len not one per cell; 6 a mark above 2; 8 a cell names
 * a triple that is not there; 16 a coordinate above 4,096, named or not, or a total that does not fit 64 bits. On a refusal
 * the totals are those handed in. */
sf_covered sf_add_coverage(sf_totals totals,
                           const uint32_t *triples, size_t triples_len,
                           const uint32_t *cells, size_t cells_len,
                           const uint8_t *marks, size_t marks_len);

/* A number for each cell: cells joined through shared vertices have the same one, and numbers count up from 0 by first
 * appearance.
 * Answer: first = how many numbers there are; numbers[0..cells). Work is zero.
 * Work needed: 2 * points entries.
 * Refusals: 4; 5 points_len not by 3, cells_len not by 4, or work short; 8; 9 numbers short, first = cells. */
sf_answer sf_components(const float *points, size_t points_len,
                        const uint32_t *cells, size_t cells_len,
                        uint32_t *numbers, size_t numbers_len,
                        uint32_t *work, size_t work_len);

/* The numbering by faces: cells that have three points in common are joined, step by step, and joined cells have the same
 * number; numbers count up from 0 by first appearance. It refines the numbers of sf_components: cells with one number
 * here have one number there.
 * Answer: first = how many numbers there are; numbers[0..cells). Work is zero.
 * Work needed: 16 * cells entries.
 * Refusals, in this order: 4; 5 points_len not by 3, cells_len not by 4, or work short; 8; 17; 9 numbers short,
 * first = cells. */
sf_answer sf_face_components(const float *points, size_t points_len,
                             const uint32_t *cells, size_t cells_len,
                             uint32_t *numbers, size_t numbers_len,
                             uint32_t *work, size_t work_len);

/* Whether the mesh is one piece: whether it has exactly one number by faces. A mesh without cells is not.
 * Answer: first = 1 or 0. Work is zero.
 * Work needed: 16 * cells entries.
 * Refusals: 4; 5 points_len not by 3, cells_len not by 4, or work short; 8; 17. */
sf_answer sf_one_piece(const float *points, size_t points_len,
                       const uint32_t *cells, size_t cells_len,
                       uint32_t *work, size_t work_len);

/* The file of a mesh: three sections, each after its count, little-endian: points, cells, component numbers.
 * Answer: first = bytes written, 12 + 12 * points + 20 * cells. Work is zero.
 * Work needed: 2 * points entries.
 * Refusals: 4; 5 points_len not by 3, cells_len not by 4, or work short; 8; 9 file short, first = bytes. */
sf_answer sf_write_mesh(const float *points, size_t points_len,
                        const uint32_t *cells, size_t cells_len,
                        uint8_t *file, size_t file_len,
                        uint32_t *work, size_t work_len);

/* The mesh of a file. The file is exactly file[0..file_len).
 * Answer: first = points, second = cells; the mesh. Work is zero.
 * Work needed: 2 * points entries.
 * Refusals, in this order: 11 (an empty file too); 12; 4; 8; 9 points, cells or work short, first = points,
 * second = cells; 13, and then work is zero. To size the tables, ask with empty ones first. */
sf_answer sf_read_mesh(const uint8_t *file, size_t file_len,
                       float *points, size_t points_len,
                       uint32_t *cells, size_t cells_len,
                       uint32_t *work, size_t work_len);

/* The mesh as a legacy VTK file, version 3.0, BINARY, UNSTRUCTURED_GRID, titled "cover mesh": every number big-endian,
 * every cell led by a four and of type 10, the component numbers as cell data.
 * Answer: first = bytes written. Work is zero.
 * Work needed: 2 * points entries.
 * Refusals: 4; 5 points_len not by 3, cells_len not by 4, or work short; 8; 9 file short, first = bytes. */
sf_answer sf_write_vtk(const float *points, size_t points_len,
                       const uint32_t *cells, size_t cells_len,
                       uint8_t *file, size_t file_len,
                       uint32_t *work, size_t work_len);

/* The mesh of a VTK file of exactly that layout, under any title of at most 256 bytes, its line feed included. The title
 * is not answered.
 * Answer: first = points, second = cells; the mesh. Work is zero.
 * Work needed: 2 * points entries.
 * Refusals, in this order: read from the front, 14 at the first byte of a header line, count or line feed that departs
 * from the layout, or 11 if the file ends before any does; 12; 15; 4; 8; 9 points, cells or work short, first = points,
 * second = cells; 13, and then work is zero. To size the tables, ask with empty ones first. */
sf_answer sf_read_vtk(const uint8_t *file, size_t file_len,
                      float *points, size_t points_len,
                      uint32_t *cells, size_t cells_len,
                      uint32_t *work, size_t work_len);

#ifdef __cplusplus
}
#endif

#endif
