//! Points made at random, and exact tests of them.

#![allow(dead_code, reason = "each test uses some of it")]

use dcel::delaunay::Point2;

/// A small generator of numbers (xorshift).
pub struct Numbers(pub u64);

impl Numbers {
    pub fn below(&mut self, limit: u64) -> u64 {
        self.0 ^= self.0 << 13;
        self.0 ^= self.0 >> 7;
        self.0 ^= self.0 << 17;
        self.0 % limit
    }

    pub fn point(&mut self, width: i64) -> Point2 {
        let span = 2 * width as u64 + 1;
        let [x, y] = [0; 2].map(|_| self.below(span) as i64 - width);
        Point2::new(x, y)
    }
}

/// Twice the area of a triangle, above 0 if it goes counterclockwise.
pub fn area([a, b, c]: [Point2; 3]) -> i128 {
    let [bx, by, cx, cy] = [b.x - a.x, b.y - a.y, c.x - a.x, c.y - a.y].map(i128::from);
    bx * cy - by * cx
}

/// Above 0 if the point is inside the circle of a triangle that goes counterclockwise. Coordinates
/// are below 2^20.
pub fn in_circle(corners: [Point2; 3], point: Point2) -> i128 {
    let [a, b, c] = corners.map(|it| [it.x - point.x, it.y - point.y].map(i128::from));
    let square = |[x, y]: [i128; 2]| x * x + y * y;
    let cross = |[ax, ay]: [i128; 2], [bx, by]: [i128; 2]| ax * by - ay * bx;
    square(a) * cross(b, c) + square(b) * cross(c, a) + square(c) * cross(a, b)
}
