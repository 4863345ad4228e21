//! Refusal 7, from its words: no split octant under an unsplit one, and no two touching leaves more
//! than one level apart.

use lifted::lent::Layout;

/// The finest octants, each with the level of the leaf that covers it.
struct Finest {
    counts: [i32; 3],
    levels: Vec<u8>,
}

impl Finest {
    fn at(&self, c: [i32; 3]) -> usize {
        let [i, j, k] = c.map(|x| x as usize);
        let [nx, ny, _] = self.counts.map(|n| n as usize);
        i + (j + k * ny) * nx
    }

    fn has(&self, c: [i32; 3]) -> bool {
        (0..3).all(|a| c[a] >= 0 && c[a] < self.counts[a])
    }

    /// Paints from the roots down: a split octant hands its place to its children.
    fn painted(layout: &Layout, split: &[u8]) -> Self {
        let counts = layout.count(0);
        let size: i32 = counts.iter().product();
        let mut finest = Finest {
            counts,
            levels: vec![layout.levels as u8; size as usize],
        };
        for ((level, c), byte) in layout.octants().zip(split) {
            if *byte == 1 {
                finest.paint(level, c);
            }
        }
        finest
    }

    fn paint(&mut self, level: u32, c: [i32; 3]) {
        let low = c.map(|x| x << level);
        for k in 0..1 << level {
            for j in 0..1 << level {
                let row = self.at([low[0], low[1] + j, low[2] + k]);
                self.levels[row..row + (1 << level)].fill(level as u8 - 1);
            }
        }
    }

    /// Whether some finest octant and one of those around it differ by more than a level.
    fn jumps(&self) -> bool {
        let [nx, ny, nz] = self.counts;
        (0..nz).any(|k| (0..ny).any(|j| (0..nx).any(|i| self.jumps_at([i, j, k]))))
    }

    fn jumps_at(&self, c: [i32; 3]) -> bool {
        let own = self.levels[self.at(c)];
        AROUND.iter().any(|offset| {
            let other: [i32; 3] = std::array::from_fn(|a| c[a] + offset[a]);
            self.has(other) && own.abs_diff(self.levels[self.at(other)]) > 1
        })
    }
}

/// One of each two opposite neighbours, by face, edge and corner.
const AROUND: [[i32; 3]; 13] = [
    [1, 0, 0],
    [0, 1, 0],
    [0, 0, 1],
    [1, 1, 0],
    [1, -1, 0],
    [1, 0, 1],
    [1, 0, -1],
    [0, 1, 1],
    [0, 1, -1],
    [1, 1, 1],
    [1, 1, -1],
    [1, -1, 1],
    [-1, 1, 1],
];

fn orphaned(layout: &Layout, split: &[u8]) -> bool {
    layout.octants().zip(split).any(|((level, c), byte)| {
        *byte == 1 && level < layout.levels && split[layout.place(level + 1, c.map(|x| x / 2))] == 0
    })
}

/// Whether a split table of zeros and ones passes refusal 7.
pub fn graded(layout: &Layout, split: &[u8]) -> bool {
    layout.levels == 0 || (!orphaned(layout, split) && !Finest::painted(layout, split).jumps())
}
