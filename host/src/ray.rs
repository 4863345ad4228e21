//! Rays along an axis, to count how often a closed surface winds around a point.
//!
//! A ray that meets an edge or a corner must count for exactly one of the triangles there. So a triangle is met if its
//! shadow turns around the point, and a shadow's edges are half open; an edge is judged from its lower end to its
//! higher one whichever triangle asks, so that two neighbours never disagree, whatever is rounded.

use crate::vector::{cone, Point, Triangle};

/// 1 if the ray from a point along an axis leaves through the triangle's front, −1 if it enters there, 0 if
/// it misses the triangle.
pub fn pierced(triangle: &Triangle, from: Point, axis: usize) -> i64 {
    let turns = turns(triangle, from, axis);
    let ahead = turns != 0 && cone(from, triangle) * turns as f64 > 0.0;
    turns * i64::from(ahead)
}

/// How often the triangle's shadow along an axis turns around the point.
fn turns(triangle: &Triangle, around: Point, axis: usize) -> i64 {
    let (u, v) = ((axis + 1) % 3, (axis + 2) % 3);
    let edge = |k: usize| {
        let (a, b) = (triangle[k], triangle[(k + 1) % 3]);
        let (low, high, way) = match (a[v] <= around[v], b[v] <= around[v]) {
            (true, false) => (a, b, 1),
            (false, true) => (b, a, -1),
            _ => return 0,
        };
        let rise = (high[u] - low[u]) * (around[v] - low[v]);
        way * i64::from(rise > (around[u] - low[u]) * (high[v] - low[v]))
    };
    edge(0) + edge(1) + edge(2)
}

#[cfg(test)]
mod tests {
    use super::*;

    const FRONT: Triangle = [[3.0, 0.0, 0.0], [3.0, 2.0, 0.0], [3.0, 0.0, 2.0]];

    #[test]
    fn a_ray_leaves_through_the_front_and_enters_through_the_back() {
        let [a, b, c] = FRONT;
        assert_eq!(pierced(&FRONT, [0.0, 0.5, 0.5], 0), 1);
        assert_eq!(pierced(&[a, c, b], [0.0, 0.5, 0.5], 0), -1);
        assert_eq!(pierced(&FRONT, [4.0, 0.5, 0.5], 0), 0);
        assert_eq!(pierced(&FRONT, [0.0, 1.5, 1.5], 0), 0);
        assert_eq!(pierced(&FRONT, [0.0, 0.5, 0.5], 1), 0);
    }

    /// Four triangles around a point of a square: a ray to any point of the square meets one of them.
    #[test]
    fn edges_and_corners_count_once() {
        let hub = [1.0, 0.1, 0.3];
        let rim = [[1.0, -1.0, -1.0], [1.0, 1.0, -1.0], [1.0, 1.0, 1.0], [1.0, -1.0, 1.0]];
        let met = |y: f64, z: f64| -> i64 {
            let fan = (0..4).map(|k| [hub, rim[k], rim[(k + 1) % 4]]);
            fan.map(|triangle| pierced(&triangle, [0.0, y, z], 0)).sum()
        };
        for n in -20i32..20 {
            for m in -20i32..20 {
                assert_eq!(met(f64::from(n) / 20.0, f64::from(m) / 20.0), 1);
            }
        }
        assert_eq!((met(hub[1], hub[2]), met(-1.0, -1.0), met(1.0, 1.0)), (1, 1, 0));
    }
}
