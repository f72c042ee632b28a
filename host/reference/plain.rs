//! Ray hits and Fresnel values of the usual kind, to measure against: the formulas as they stand, with no checked steps. Neither an
//! input nor a step is tested, so what the library refuses comes out as a miss, as NaN or as some number.
//!
//! The root is given, so that the same formula can be timed with the processor's, `f64::sqrt`, and with another.

type Vector = [f64; 3];

fn dot(a: Vector, b: Vector) -> f64 {
    a[0] * b[0] + a[1] * b[1] + a[2] * b[2]
}

fn minus(a: Vector, b: Vector) -> Vector {
    [a[0] - b[0], a[1] - b[1], a[2] - b[2]]
}

fn along(o: Vector, t: f64, d: Vector) -> Vector {
    [o[0] + t * d[0], o[1] + t * d[1], o[2] + t * d[2]]
}

/// Where a ray, origin and direction, hits a sphere, centre and radius.
pub fn sphere(ray: &[f64; 6], sphere: &[f64; 4], least: f64, root: impl Fn(f64) -> f64) -> Option<f64> {
    let &[ox, oy, oz, dx, dy, dz] = ray;
    let &[cx, cy, cz, r] = sphere;
    let d = [dx, dy, dz];
    let p = minus([ox, oy, oz], [cx, cy, cz]);
    let a = dot(d, d);
    let b = dot(p, d);
    let discriminant = b * b - a * (dot(p, p) - r * r);
    if discriminant < 0.0 {
        return None;
    }
    let e = root(discriminant);
    let near = (-b - e) / a;
    if near > least {
        return Some(near);
    }
    let far = (-b + e) / a;
    (far > least).then_some(far)
}

/// Where a ray hits a ring: centre, normal, inner and outer radius.
pub fn ring(ray: &[f64; 6], ring: &[f64; 8], least: f64) -> Option<f64> {
    let &[ox, oy, oz, dx, dy, dz] = ray;
    let &[cx, cy, cz, nx, ny, nz, inner, outer] = ring;
    let (o, d, c, n) = ([ox, oy, oz], [dx, dy, dz], [cx, cy, cz], [nx, ny, nz]);
    let m = dot(d, n);
    if m == 0.0 {
        return None;
    }
    let t = dot(minus(c, o), n) / m;
    if t <= least {
        return None;
    }
    let w = minus(along(o, t, d), c);
    let s = dot(w, w);
    (inner * inner <= s && s <= outer * outer).then_some(t)
}

/// Where a ray hits a polygon: its corners, three reals each.
pub fn polygon(ray: &[f64; 6], reals: &[f64], least: f64) -> Option<f64> {
    let &[ox, oy, oz, dx, dy, dz] = ray;
    let (o, d) = ([ox, oy, oz], [dx, dy, dz]);
    let count = reals.len() / 3;
    let corner = |k: usize| [reals[3 * k], reals[3 * k + 1], reals[3 * k + 2]];
    let mut n = [0.0; 3];
    let mut a = corner(count - 1);
    for b in (0..count).map(corner) {
        n = [
            n[0] + (a[1] * b[2] - a[2] * b[1]),
            n[1] + (a[2] * b[0] - a[0] * b[2]),
            n[2] + (a[0] * b[1] - a[1] * b[0]),
        ];
        a = b;
    }
    let t = dot(minus(corner(0), o), n) / dot(d, n);
    if !(t > least && t.is_finite()) {
        return None;
    }
    let p = along(o, t, d);
    let [x, y, z] = n.map(f64::abs);
    let (g, h) = if x >= y && x >= z {
        (1, 2)
    } else if y >= z {
        (0, 2)
    } else {
        (0, 1)
    };
    let mut inside = false;
    let mut a = corner(count - 1);
    for b in (0..count).map(corner) {
        if (a[h] <= p[h]) != (b[h] <= p[h]) {
            inside ^= a[g] + (p[h] - a[h]) * (b[g] - a[g]) / (b[h] - a[h]) > p[g];
        }
        a = b;
    }
    inside.then_some(t)
}

/// The square of (a-b)/(a+b).
fn coefficient(a: f64, b: f64) -> f64 {
    let q = (a - b) / (a + b);
    q * q
}

/// Fresnel's coefficients, none for total reflection.
pub fn fresnel(cos1: f64, n1: f64, n2: f64, root: impl Fn(f64) -> f64) -> Option<[f64; 3]> {
    let k = n1 / n2;
    let u = 1.0 - k * k * (1.0 - cos1 * cos1);
    if u < 0.0 {
        return None;
    }
    let cos2 = root(u);
    let te = coefficient(n1 * cos1, n2 * cos2);
    let tm = coefficient(n1 * cos2, n2 * cos1);
    Some([te, tm, 0.5 * te + 0.5 * tm])
}
