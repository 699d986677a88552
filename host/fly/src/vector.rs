//! Three numbers, rotations. Only + - * / and the root, so that a flight is the same on every machine.

pub type V3 = [f64; 3];
/// Columns are the body's axes in the world's.
pub type M3 = [V3; 3];
/// w, x, y, z.
pub type Quat = [f64; 4];

pub fn add(a: V3, b: V3) -> V3 {
    [a[0] + b[0], a[1] + b[1], a[2] + b[2]]
}

pub fn sub(a: V3, b: V3) -> V3 {
    [a[0] - b[0], a[1] - b[1], a[2] - b[2]]
}

pub fn scale(k: f64, a: V3) -> V3 {
    a.map(|x| k * x)
}

pub fn dot(a: V3, b: V3) -> f64 {
    a[0] * b[0] + a[1] * b[1] + a[2] * b[2]
}

pub fn cross(a: V3, b: V3) -> V3 {
    [a[1] * b[2] - a[2] * b[1], a[2] * b[0] - a[0] * b[2], a[0] * b[1] - a[1] * b[0]]
}

pub fn norm(a: V3) -> f64 {
    dot(a, a).sqrt()
}

/// A vector of length one; the first axis where there is no direction.
pub fn unit(a: V3) -> V3 {
    let n = norm(a);
    if n > 0.0 {
        scale(1.0 / n, a)
    } else {
        [1.0, 0.0, 0.0]
    }
}

/// q turned by a small angle about the body's axes, and of length one again.
pub fn turned(q: Quat, angle: V3) -> Quat {
    let [w, x, y, z] = q;
    let [a, b, c] = scale(0.5, angle);
    let q = [w - x * a - y * b - z * c, x + w * a + y * c - z * b, y + w * b + z * a - x * c, z + w * c + x * b - y * a];
    let n = q.iter().map(|x| x * x).sum::<f64>().sqrt();
    q.map(|x| x / n)
}

/// The body's three axes.
pub fn axes([w, x, y, z]: Quat) -> M3 {
    [
        [1.0 - 2.0 * (y * y + z * z), 2.0 * (x * y + w * z), 2.0 * (x * z - w * y)],
        [2.0 * (x * y - w * z), 1.0 - 2.0 * (x * x + z * z), 2.0 * (y * z + w * x)],
        [2.0 * (x * z + w * y), 2.0 * (y * z - w * x), 1.0 - 2.0 * (x * x + y * y)],
    ]
}

/// How far `r` is turned from `wanted`, about the body's axes: for small errors the angle.
pub fn error(r: &M3, wanted: &M3) -> V3 {
    let world = scale(0.5, add(add(cross(wanted[0], r[0]), cross(wanted[1], r[1])), cross(wanted[2], r[2])));
    r.map(|axis| dot(world, axis))
}
