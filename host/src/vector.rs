//! Points in f64, for the host's own geometry.

pub type Point = [f64; 3];
pub type Triangle = [Point; 3];

/// An f32 point in f64; nothing is lost.
pub fn wide([x, y, z]: [f32; 3]) -> Point {
    [f64::from(x), f64::from(y), f64::from(z)]
}

pub fn sub(a: Point, b: Point) -> Point {
    [a[0] - b[0], a[1] - b[1], a[2] - b[2]]
}

pub fn dot(a: Point, b: Point) -> f64 {
    a[0] * b[0] + a[1] * b[1] + a[2] * b[2]
}

pub fn cross(a: Point, b: Point) -> Point {
    [a[1] * b[2] - a[2] * b[1], a[2] * b[0] - a[0] * b[2], a[0] * b[1] - a[1] * b[0]]
}

pub fn length(a: Point) -> f64 {
    dot(a, a).sqrt()
}

/// The mean of some points.
pub fn middle(points: &[Point]) -> Point {
    std::array::from_fn(|axis| points.iter().map(|p| p[axis]).sum::<f64>() / points.len() as f64)
}

/// The volume of the tetrahedron from a point to a triangle, with its sign.
pub fn cone(from: Point, triangle: &Triangle) -> f64 {
    let [a, b, c] = triangle.map(|corner| sub(corner, from));
    dot(a, cross(b, c)) / 6.0
}

/// The least box around points.
pub fn box_of(points: &[Point]) -> (Point, Point) {
    let mut low = [f64::INFINITY; 3];
    let mut high = [f64::NEG_INFINITY; 3];
    for point in points {
        for axis in 0..3 {
            low[axis] = low[axis].min(point[axis]);
            high[axis] = high[axis].max(point[axis]);
        }
    }
    (low, high)
}
