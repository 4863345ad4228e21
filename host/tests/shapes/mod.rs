//! Closed surfaces to mesh. Each test file takes those it needs.
#![allow(dead_code)]

use sporeferry::stl::Facet;
use std::f64::consts::TAU;

/// A surface over a grid of `n` by `m` places that closes in both directions.
fn wrapped(n: usize, m: usize, at: impl Fn(f64, f64) -> [f64; 3]) -> Vec<Facet> {
    let point = |i: usize, j: usize| {
        let (u, v) = ((i % n) as f64 / n as f64, (j % m) as f64 / m as f64);
        at(u, v).map(|x| x as f32)
    };
    let squares = (0..n).flat_map(|i| (0..m).map(move |j| (i, j)));
    let halves = squares.flat_map(|(i, j)| {
        let [a, b] = [point(i, j), point(i + 1, j)];
        let [c, d] = [point(i + 1, j + 1), point(i, j + 1)];
        [[a, b, c], [a, c, d]]
    });
    halves.collect()
}

/// A ring around the z axis.
pub fn torus(radius: f64, tube: f64) -> Vec<Facet> {
    wrapped(48, 24, |u, v| {
        let (around, across) = (u * TAU, v * TAU);
        let out = radius + tube * across.cos();
        [out * around.cos(), out * around.sin(), tube * across.sin()]
    })
}

/// A ball of triangles: an octahedron, each side halved some times and pushed out to the radius.
pub fn sphere(radius: f64) -> Vec<Facet> {
    let tips = [[1.0, 0.0, 0.0], [0.0, 1.0, 0.0], [-1.0, 0.0, 0.0], [0.0, -1.0, 0.0]];
    let mut triangles: Vec<[[f64; 3]; 3]> = Vec::new();
    for k in 0..4 {
        let (a, b) = (tips[k], tips[(k + 1) % 4]);
        triangles.push([a, b, [0.0, 0.0, 1.0]]);
        triangles.push([b, a, [0.0, 0.0, -1.0]]);
    }
    for _ in 0..4 {
        triangles = triangles.into_iter().flat_map(quarters).collect();
    }
    let sized = |point: [f64; 3]| point.map(|x| (x * radius) as f32);
    triangles.into_iter().map(|t| t.map(sized)).collect()
}

fn quarters([a, b, c]: [[f64; 3]; 3]) -> [[[f64; 3]; 3]; 4] {
    let middle = |p: [f64; 3], q: [f64; 3]| {
        let sum: [f64; 3] = std::array::from_fn(|k| p[k] + q[k]);
        let length = sum.iter().map(|x| x * x).sum::<f64>().sqrt();
        sum.map(|x| x / length)
    };
    let (ab, bc, ca) = (middle(a, b), middle(b, c), middle(c, a));
    [[a, ab, ca], [ab, b, bc], [ca, bc, c], [ab, bc, ca]]
}
