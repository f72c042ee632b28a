//! Ray hits, Fresnel values and panes of glass, step by step: each step is tested where it is made, and the first failure ends the work.

/// A step is NaN or infinite, or an input is.
pub const NOT_FINITE: u32 = 20;
/// An input is outside its range.
pub const OUT_OF_RANGE: u32 = 21;

/// A distance, none for a miss, or a refusal's number.
pub type Hit = Result<Option<f64>, u32>;

/// FTE, FTM and F, none for total reflection, or a refusal's number.
pub type Reflection = Result<Option<[f64; 3]>, u32>;

type Vector = [f64; 3];

fn step(x: f64) -> Result<f64, u32> {
    if x.is_finite() {
        Ok(x)
    } else {
        Err(NOT_FINITE)
    }
}

fn finite(inputs: &[f64]) -> Result<(), u32> {
    inputs.iter().try_for_each(|&x| step(x).map(drop))
}

fn in_range(fine: bool) -> Result<(), u32> {
    if fine {
        Ok(())
    } else {
        Err(OUT_OF_RANGE)
    }
}

fn dot(a: Vector, b: Vector) -> Result<f64, u32> {
    let x = step(a[0] * b[0])?;
    let y = step(a[1] * b[1])?;
    let z = step(a[2] * b[2])?;
    step(step(x + y)? + z)
}

fn minus(a: Vector, b: Vector) -> Result<Vector, u32> {
    Ok([step(a[0] - b[0])?, step(a[1] - b[1])?, step(a[2] - b[2])?])
}

fn along(o: Vector, t: f64, d: Vector) -> Result<Vector, u32> {
    let part = |k: usize| step(o[k] + step(t * d[k])?);
    Ok([part(0)?, part(1)?, part(2)?])
}

/// The least distance where none is named.
pub const LEAST: f64 = 0.001;

/// Where a ray, origin and direction, hits a sphere, centre and radius, above a least distance.
pub fn sphere(ray: &[f64; 6], sphere: &[f64; 4], least: f64) -> Hit {
    finite(ray)?;
    finite(sphere)?;
    finite(&[least])?;
    let &[ox, oy, oz, dx, dy, dz] = ray;
    let &[cx, cy, cz, r] = sphere;
    in_range(r > 0.0 && least >= 0.0)?;
    let d = [dx, dy, dz];
    let p = minus([ox, oy, oz], [cx, cy, cz])?;
    let a = dot(d, d)?;
    in_range(a != 0.0)?;
    let b = dot(p, d)?;
    let q = step(dot(p, p)? - step(r * r)?)?;
    let discriminant = step(step(b * b)? - step(a * q)?)?;
    if discriminant < 0.0 {
        return Ok(None);
    }
    let e = step(root(discriminant))?;
    let near = step(step(-b - e)? / a)?;
    let far = step(step(-b + e)? / a)?;
    Ok([near, far].into_iter().find(|&t| t > least))
}

/// How far along a ray meets the plane through a point with a normal.
fn plane(o: Vector, d: Vector, c: Vector, n: Vector, least: f64) -> Hit {
    let m = dot(d, n)?;
    if m == 0.0 {
        return Ok(None);
    }
    let t = step(dot(minus(c, o)?, n)? / m)?;
    Ok((t > least).then_some(t))
}

/// Where a ray hits a ring: centre, normal, inner and outer radius.
pub fn ring(ray: &[f64; 6], ring: &[f64; 8], least: f64) -> Hit {
    finite(ray)?;
    finite(ring)?;
    finite(&[least])?;
    let &[ox, oy, oz, dx, dy, dz] = ray;
    let &[cx, cy, cz, nx, ny, nz, inner, outer] = ring;
    in_range(inner >= 0.0 && outer > inner && least >= 0.0)?;
    let (o, d, c, n) = ([ox, oy, oz], [dx, dy, dz], [cx, cy, cz], [nx, ny, nz]);
    let Some(t) = plane(o, d, c, n, least)? else {
        return Ok(None);
    };
    let w = minus(along(o, t, d)?, c)?;
    let s = dot(w, w)?;
    let (inner2, outer2) = (step(inner * inner)?, step(outer * outer)?);
    Ok((inner2 <= s && s <= outer2).then_some(t))
}

fn plus(a: Vector, b: Vector) -> Result<Vector, u32> {
    Ok([step(a[0] + b[0])?, step(a[1] + b[1])?, step(a[2] + b[2])?])
}

fn cross(a: Vector, b: Vector) -> Result<Vector, u32> {
    let part = |i: usize, j: usize| step(step(a[i] * b[j])? - step(a[j] * b[i])?);
    Ok([part(1, 2)?, part(2, 0)?, part(0, 1)?])
}

/// Whether a line from p along the axis g, in the positive direction, crosses an edge; h is the other axis.
fn is_crossed(g: usize, h: usize, p: Vector, (a, b): (Vector, Vector)) -> Result<bool, u32> {
    let (low, high) = if a[h] < b[h] { (a, b) } else { (b, a) };
    if p[h] < low[h] || p[h] >= high[h] {
        return Ok(false);
    }
    let across = step(step(p[h] - low[h])? * step(high[g] - low[g])?)?;
    Ok(step(low[g] + step(across / step(high[h] - low[h])?)?)? > p[g])
}

/// Where a ray hits a polygon: its corners, three reals each.
pub fn polygon(ray: &[f64; 6], reals: &[f64], least: f64) -> Hit {
    finite(ray)?;
    finite(reals)?;
    finite(&[least])?;
    in_range(reals.len() >= 9 && reals.len() % 3 == 0 && least >= 0.0)?;
    let &[ox, oy, oz, dx, dy, dz] = ray;
    let (o, d) = ([ox, oy, oz], [dx, dy, dz]);
    let corners: Vec<Vector> = reals.chunks_exact(3).map(|c| [c[0], c[1], c[2]]).collect();
    let edges: Vec<(Vector, Vector)> = corners.iter().copied().zip(corners.iter().copied().cycle().skip(1)).collect();
    let (a, b) = edges[0];
    let n = edges[1..].iter().try_fold(cross(a, b)?, |sum, &(a, b)| plus(sum, cross(a, b)?))?;
    in_range(n != [0.0; 3])?;
    let Some(t) = plane(o, d, corners[0], n, least)? else {
        return Ok(None);
    };
    let p = along(o, t, d)?;
    let [x, y, z] = n.map(f64::abs);
    let (g, h) = if x >= y && x >= z {
        (1, 2)
    } else if y >= z {
        (0, 2)
    } else {
        (0, 1)
    };
    let mut inside = false;
    for edge in edges {
        inside ^= is_crossed(g, h, p, edge)?;
    }
    Ok(inside.then_some(t))
}

/// The square of (a-b)/(a+b).
fn coefficient(a: f64, b: f64) -> Result<f64, u32> {
    let q = step(step(a - b)? / step(a + b)?)?;
    step(q * q)
}

/// Fresnel's coefficients.
pub fn fresnel(cos1: f64, n1: f64, n2: f64) -> Reflection {
    finite(&[cos1, n1, n2])?;
    in_range((0.0..=1.0).contains(&cos1) && n1 > 0.0 && n2 > 0.0)?;
    let k = step(n1 / n2)?;
    let t = step(step(k * k)? * step(1.0 - step(cos1 * cos1)?)?)?;
    let u = step(1.0 - t)?;
    if u < 0.0 {
        return Ok(None);
    }
    let cos2 = step(root(u))?;
    let te = coefficient(step(n1 * cos1)?, step(n2 * cos2)?)?;
    let tm = coefficient(step(n1 * cos2)?, step(n2 * cos1)?)?;
    let f = step(step(0.5 * te)? + step(0.5 * tm)?)?;
    Ok(Some([te, tm, f]))
}

/// What light of one polarisation adds to how much goes through a pane and how much comes back: f is its coefficient at one side, c the
/// square of what is left after crossing the pane.
fn polarised(f: f64, c: f64) -> Result<[f64; 2], u32> {
    let rest = step(1.0 - step(step(f * f)? * c)?)?;
    let passed = step(1.0 - f)?;
    let through = step(step(0.5 * step(passed * passed)?)? / rest)?;
    let bracket = step(1.0 + step(step(1.0 - step(2.0 * f)?)? * c)?)?;
    let back = step(step(step(0.5 * f)? * bracket)? / rest)?;
    Ok([through, back])
}

/// How much goes through a pane and how much comes back, from FTE, FTM and Ct.
pub fn pane_factors(te: f64, tm: f64, ct: f64) -> Result<[f64; 2], u32> {
    finite(&[te, tm, ct])?;
    in_range([te, tm, ct].iter().all(|x| (0.0..=1.0).contains(x)))?;
    let c = step(ct * ct)?;
    let ([te_through, te_back], [tm_through, tm_back]) = (polarised(te, c)?, polarised(tm, c)?);
    Ok([step(te_through + tm_through)?, step(te_back + tm_back)?])
}

/// The transmissivity of glass from its transmittance.
pub fn transmissivity(transmittance: f64) -> Result<f64, u32> {
    finite(&[transmittance])?;
    in_range(transmittance > 0.0 && transmittance <= 1.0)?;
    let square = step(step(0.0072522239 * transmittance)? * transmittance)?;
    let s = step(root(step(0.8402528435 + square)?))?;
    step(step(step(s - 0.9166530661)? / 0.0036261119)? / transmittance)
}

/// The root of x: the largest double whose exact square is at most x; NaN where there is none.
///
/// The processor's root is the nearest double to the true one, so it is the answer or the double just above it.
pub fn root(x: f64) -> f64 {
    if x == 0.0 {
        return 0.0;
    }
    if !(x > 0.0 && x.is_finite()) {
        return f64::NAN;
    }
    let nearest = x.sqrt();
    if square_is_at_most(nearest, x) {
        nearest
    } else {
        nearest.next_down()
    }
}

/// A positive finite double as m * 2^e.
fn parts(x: f64) -> (u64, i32) {
    let bits = x.to_bits();
    let fraction = bits & ((1 << 52) - 1);
    match (bits >> 52) as i32 {
        0 => (fraction, -1074),
        power => (fraction | 1 << 52, power - 1075),
    }
}

/// Whether y * y <= x, exactly, for positive x and a normal y next to its root.
///
/// With y = m * 2^e and x = n * 2^f this asks m * m <= n * 2^(f - 2e). As m * m has 105 or 106 binary digits, n at most 53, and both
/// sides are about the same, the shift is positive and nothing is lost in 128 digits.
pub fn square_is_at_most(y: f64, x: f64) -> bool {
    let (m, e) = parts(y);
    let (n, f) = parts(x);
    u128::from(m) * u128::from(m) <= u128::from(n) << (f - 2 * e)
}
