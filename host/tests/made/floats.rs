//! Doubles for rays, shapes, reflections, panes and roots: ordinary, grazing, huge, tiny, subnormal, NaN and infinite.

use crate::reference::random::Random;

const SPECIAL: [f64; 26] = [
    0.0,
    -0.0,
    1.0,
    -1.0,
    0.5,
    2.0,
    3.0,
    f64::MIN_POSITIVE,
    -f64::MIN_POSITIVE,
    5e-324,
    -5e-324,
    1e-310,
    f64::MAX,
    f64::MIN,
    f64::INFINITY,
    f64::NEG_INFINITY,
    f64::NAN,
    f64::EPSILON,
    1e154,
    -1e154,
    1.3407807929942596e154,
    1e-154,
    1.5e-162,
    1e200,
    1e-200,
    0.999_999_999_999_999_9,
];

/// A double from -size to size.
fn around(random: &mut Random, size: f64) -> f64 {
    (2.0 * random.unit() - 1.0) * size
}

/// A double of any size, subnormals included.
fn of_any_size(random: &mut Random) -> f64 {
    let power = random.bits() % 2047;
    f64::from_bits(power << 52 | random.bits() >> 12 | random.bits() << 63)
}

fn of_any_bits(random: &mut Random) -> f64 {
    f64::from_bits(random.bits())
}

fn special(random: &mut Random) -> f64 {
    *random.pick(&SPECIAL)
}

fn small_whole(random: &mut Random) -> f64 {
    random.within(0, 8) as f64 - 4.0
}

/// A few doubles up or down.
fn nudged(random: &mut Random, x: f64) -> f64 {
    let steps = random.below(4);
    let up = random.percent(50);
    (0..steps).fold(x, |x, _| if up { x.next_up() } else { x.next_down() })
}

fn all<const N: usize>(random: &mut Random, one: fn(&mut Random) -> f64) -> [f64; N] {
    std::array::from_fn(|_| one(random))
}

/// Parts of a ray and a shape with no plan behind them.
fn wild<const N: usize>(random: &mut Random) -> [f64; N] {
    match random.below(4) {
        0 => all(random, of_any_size),
        1 => all(random, of_any_bits),
        2 => all(random, special),
        _ => all(random, small_whole),
    }
}

/// Numbers that were well chosen, spoiled in one place or all scaled by a power of two.
fn disturbed<const N: usize>(random: &mut Random, mut numbers: [f64; N]) -> [f64; N] {
    match random.below(10) {
        0 => numbers[random.below(N)] = special(random),
        1 => numbers[random.below(N)] = of_any_size(random),
        2 => {
            let at = random.below(N);
            numbers[at] = nudged(random, numbers[at]);
        }
        3..=4 => {
            let scale = 2_f64.powi(random.within(0, 2000) as i32 - 1000);
            numbers.iter_mut().for_each(|x| *x *= scale);
        }
        _ => {}
    }
    numbers
}

/// Two powers of two whose quotient is near the largest double: for lengths, and for a direction. Distances counted in the
/// direction's length then are near it too, and of two distances one may be infinite.
fn far_apart(random: &mut Random) -> (f64, f64) {
    let lengths = random.within(485, 506) as i32;
    let direction = lengths - 1015 - random.below(8) as i32;
    (2_f64.powi(lengths), 2_f64.powi(direction))
}

fn ray_at(origin: [f64; 3], point: [f64; 3], length: f64) -> [f64; 6] {
    let [x, y, z] = std::array::from_fn(|k| (point[k] - origin[k]) * length);
    [origin[0], origin[1], origin[2], x, y, z]
}

/// A ray and a sphere.
pub fn sphere(random: &mut Random) -> ([f64; 6], [f64; 4]) {
    if random.percent(30) {
        let mut shape: [f64; 4] = wild(random);
        if random.percent(70) {
            shape[3] = shape[3].abs();
        }
        return (wild(random), shape);
    }
    let origin = std::array::from_fn(|_| around(random, 10.0));
    let centre: [f64; 3] = std::array::from_fn(|_| around(random, 10.0));
    let radius = random.unit() * 5.0 + 1e-3;
    let length = random.unit() + 0.1;
    let ray = match random.below(3) {
        0 => ray_at(origin, std::array::from_fn(|k| centre[k] + around(random, radius)), length),
        1 => {
            // Grazing: past the sphere's side, along the third axis
            let side = nudged(random, centre[0] + radius);
            [side, centre[1], origin[2], 0.0, 0.0, length]
        }
        _ => ray_at(origin, std::array::from_fn(|_| around(random, 10.0)), length),
    };
    let [a, b, c, d, e, f] = ray;
    let [x, y, z] = centre;
    if random.percent(10) {
        let (k, m) = far_apart(random);
        return ([k * a, k * b, k * c, m * d, m * e, m * f], [k * x, k * y, k * z, k * radius]);
    }
    let [a, b, c, d, e, f, shape @ ..] = disturbed(random, [a, b, c, d, e, f, x, y, z, radius]);
    ([a, b, c, d, e, f], shape)
}

/// A ray and a ring.
pub fn ring(random: &mut Random) -> ([f64; 6], [f64; 8]) {
    if random.percent(30) {
        let mut shape: [f64; 8] = wild(random);
        if random.percent(80) {
            let (a, b) = (shape[6].abs(), shape[7].abs());
            (shape[6], shape[7]) = if a < b { (a, b) } else { (b, a) };
        }
        return (wild(random), shape);
    }
    let origin = std::array::from_fn(|_| around(random, 10.0));
    let centre: [f64; 3] = std::array::from_fn(|_| around(random, 10.0));
    let inner = if random.percent(20) { 0.0 } else { random.unit() * 3.0 };
    let outer = inner + random.unit() * 3.0 + 1e-3;
    let length = random.unit() + 0.1;
    let (ray, normal) = match random.below(3) {
        0 => {
            // Straight down on the inner or outer edge
            let edge = if random.percent(50) { inner } else { outer };
            let side = nudged(random, centre[0] + edge);
            ([side, centre[1], centre[2] + 3.0, 0.0, 0.0, -length], [0.0, 0.0, 1.0])
        }
        1 => {
            let flat = [around(random, outer), around(random, outer), 0.0];
            (ray_at(origin, std::array::from_fn(|k| centre[k] + flat[k]), length), [0.0, 0.0, around(random, 2.0)])
        }
        _ => {
            let point = std::array::from_fn(|k| centre[k] + around(random, outer));
            (ray_at(origin, point, length), std::array::from_fn(|_| around(random, 1.0)))
        }
    };
    let [a, b, c, d, e, f] = ray;
    let [x, y, z] = centre;
    let [u, v, w] = normal;
    if random.percent(10) {
        let (k, m) = far_apart(random);
        return ([k * a, k * b, k * c, m * d, m * e, m * f], [k * x, k * y, k * z, u, v, w, k * inner, k * outer]);
    }
    let [a, b, c, d, e, f, shape @ ..] = disturbed(random, [a, b, c, d, e, f, x, y, z, u, v, w, inner, outer]);
    ([a, b, c, d, e, f], shape)
}

type Flat = [(f64, f64)];

const TRIANGLE: &Flat = &[(0.0, 0.0), (4.0, 0.0), (0.0, 3.0)];
const RECTANGLE: &Flat = &[(0.0, 0.0), (4.0, 0.0), (4.0, 3.0), (0.0, 3.0)];
const ANGLE: &Flat = &[(0.0, 0.0), (4.0, 0.0), (4.0, 1.0), (1.0, 1.0), (1.0, 3.0), (0.0, 3.0)];
const ARROW: &Flat = &[(0.0, 0.0), (4.0, 2.0), (0.0, 3.0), (1.0, 2.0)];
/// A hole, joined to the rim by an edge that is gone along twice.
const HOLE: &Flat = &[
    (0.0, 0.0),
    (4.0, 0.0),
    (4.0, 3.0),
    (0.0, 3.0),
    (0.0, 0.0),
    (1.0, 1.0),
    (1.0, 2.0),
    (3.0, 2.0),
    (3.0, 1.0),
    (1.0, 1.0),
];
/// Without an area: on one line, and crossing itself.
const LINE: &Flat = &[(0.0, 0.0), (1.0, 1.0), (3.0, 3.0)];
const BOW: &Flat = &[(0.0, 0.0), (2.0, 2.0), (2.0, 0.0), (0.0, 2.0)];

/// A point of a plane, given by a point and two directions.
fn placed((s, t): (f64, f64), [base, u, v]: &[[f64; 3]; 3]) -> [f64; 3] {
    std::array::from_fn(|k| base[k] + s * u[k] + t * v[k])
}

/// A plane: along two axes, along two of few small directions, or any. In the first two all steps may be exact, and parts of the
/// normal may be of the same size.
fn plane(random: &mut Random) -> [[f64; 3]; 3] {
    match random.below(4) {
        0 => {
            let mut frame = [[0.0; 3]; 3];
            let first = random.below(3);
            frame[1][first] = 1.0;
            frame[2][(first + random.within(1, 2)) % 3] = 1.0;
            frame[0] = all(random, small_whole);
            frame
        }
        1 => [all(random, small_whole), all(random, sign), all(random, sign)],
        _ => std::array::from_fn(|_| all(random, |random| around(random, 10.0))),
    }
}

fn sign(random: &mut Random) -> f64 {
    random.below(3) as f64 - 1.0
}

/// A flat shape: one of those above, or convex with up to 20 corners on a circle.
fn flat(random: &mut Random) -> Vec<(f64, f64)> {
    let shapes = [TRIANGLE, RECTANGLE, ANGLE, ARROW, HOLE, HOLE, LINE, BOW];
    if random.percent(70) {
        let mut corners = random.pick(&shapes).to_vec();
        let turn = random.below(corners.len());
        corners.rotate_left(turn);
        if random.percent(50) {
            corners.reverse();
        }
        return corners;
    }
    let mut angles: Vec<f64> = (0..random.within(3, 20)).map(|_| random.unit() * 6.28).collect();
    angles.sort_by(f64::total_cmp);
    angles.into_iter().map(|angle| (2.0 + 2.0 * angle.cos(), 1.5 + 1.5 * angle.sin())).collect()
}

/// A ray and the reals of a polygon.
pub fn polygon(random: &mut Random) -> ([f64; 6], Vec<f64>) {
    if random.percent(15) {
        let many: [f64; 24] = wild(random);
        let count = if random.percent(80) { 3 * random.within(3, 8) } else { random.below(25) };
        return (wild(random), many[..count].to_vec());
    }
    let (shape, frame) = (flat(random), plane(random));
    // A point on a lattice, where corners and edges are, or any
    let (s, t) = match random.below(3) {
        0 => (random.below(10) as f64 / 2.0 - 0.5, random.below(8) as f64 / 2.0 - 0.5),
        1 => (random.unit() * 5.0 - 0.5, random.unit() * 4.0 - 0.5),
        _ => *random.pick(&shape),
    };
    let aim = placed((s, t), &frame);
    let mut corners: Vec<f64> = shape.iter().flat_map(|&corner| placed(corner, &frame)).collect();
    let mut ray = match random.below(3) {
        0 => {
            // Along an axis, all exact for small numbers
            let mut d = [0.0; 3];
            d[random.below(3)] = 1.0;
            let away = random.within(1, 4) as f64;
            ray_at(std::array::from_fn(|k| aim[k] - away * d[k]), aim, 1.0)
        }
        1 => ray_at(std::array::from_fn(|_| around(random, 20.0)), aim, random.unit() + 0.1),
        _ => ray_at(all(random, small_whole), aim, *random.pick(&[-1.0, 0.5, 1.0])),
    };
    match random.below(20) {
        0 => ray[random.below(6)] = special(random),
        1 | 2 => *random_of(random, &mut corners) = special(random),
        3 => *random_of(random, &mut corners) = of_any_size(random),
        4 | 5 => {
            let x = random_of(random, &mut corners);
            *x = nudged(random, *x);
        }
        6 => {
            let (k, m) = far_apart(random);
            ray[..3].iter_mut().chain(&mut corners).for_each(|x| *x *= k);
            ray[3..].iter_mut().for_each(|x| *x *= m);
        }
        7..=9 => {
            let scale = 2_f64.powi(random.within(0, 2000) as i32 - 1000);
            ray.iter_mut().chain(&mut corners).for_each(|x| *x *= scale);
        }
        10 => corners.truncate(random.below(12)),
        _ => {}
    }
    (ray, corners)
}

fn random_of<'a>(random: &mut Random, numbers: &'a mut [f64]) -> &'a mut f64 {
    let at = random.below(numbers.len());
    &mut numbers[at]
}

/// A least distance for a hit at some distances: one of them, beside one, between two, or any.
pub fn least(random: &mut Random, distances: &[f64]) -> f64 {
    match (random.below(8), distances) {
        (0, _) => special(random),
        (1, _) => of_any_size(random),
        (2, _) => *random.pick(&[0.0, -0.0, 5e-324, -5e-324, 0.001, -1.0]),
        (3, [near, far]) => near + (far - near) * random.unit(),
        (4, [.., far]) => *far,
        (5, [near, ..]) => *near,
        (_, []) => random.unit() * 10.0,
        _ => {
            let t = *random.pick(distances);
            nudged(random, t)
        }
    }
}

/// A cosine and two indices.
pub fn fresnel(random: &mut Random) -> [f64; 3] {
    if random.percent(15) {
        return wild(random);
    }
    let n1 = 0.5 + 2.5 * random.unit();
    let n2 = match random.below(5) {
        0 => n1,
        1 => nudged(random, n1),
        _ => 0.5 + 2.5 * random.unit(),
    };
    let cos1 = match random.below(8) {
        0 => 0.0,
        1 => 1.0,
        2 => random.unit() * 1e-8,
        3 => 1.0 - random.unit() * 1e-8,
        4 => {
            // Near the angle at which total reflection begins
            let critical = (1.0 - (n2 / n1) * (n2 / n1)).max(0.0).sqrt();
            nudged(random, critical).abs()
        }
        5 => special(random),
        _ => random.unit(),
    };
    let [cos1, n1, n2] = match random.below(8) {
        0 => [cos1, of_any_size(random).abs(), n2],
        1 => [cos1, n1, of_any_size(random).abs()],
        2 => {
            let scale = 2_f64.powi(random.within(0, 2000) as i32 - 1000);
            [cos1, n1 * scale, n2 * scale]
        }
        3 => disturbed(random, [cos1, n1, n2]),
        _ => [cos1, n1, n2],
    };
    [cos1, n1, n2]
}

/// A number from 0 to 1, mostly: at the ends, beside them or between.
fn fraction(random: &mut Random) -> f64 {
    let small = random.unit() * 2_f64.powi(-(random.below(1070) as i32));
    match random.below(12) {
        0 => 0.0,
        1 | 2 => 1.0,
        3 => nudged(random, 1.0),
        4 => 1.0 - random.unit() * 2_f64.powi(-(random.below(54) as i32)),
        5 => small,
        6 if random.percent(50) => special(random),
        7 if random.percent(30) => of_any_size(random),
        _ => random.unit(),
    }
}

/// FTE, FTM and Ct.
pub fn pane(random: &mut Random) -> [f64; 3] {
    if random.percent(3) {
        return wild(random);
    }
    all(random, fraction)
}

/// A transmittance. Below about 1e-4 the transmissivity is negative, and for the least subnormals no double.
pub fn transmittance(random: &mut Random) -> f64 {
    match random.below(8) {
        0 => f64::from_bits(random.bits() >> random.within(12, 63)),
        1 => 2e-4 * random.unit(),
        2 => of_any_size(random).abs().min(1.0),
        3 if random.percent(20) => of_any_bits(random),
        _ => fraction(random),
    }
}

/// A number whose root is asked for.
pub fn root(random: &mut Random) -> f64 {
    match random.below(8) {
        0 => of_any_bits(random),
        1 => special(random),
        2 => f64::from_bits(random.bits() >> random.within(12, 63)),
        3 => {
            // An exact square of up to 26 binary digits, or next to one
            let side = (random.bits() >> random.within(38, 63)) as f64;
            let scale = 4_f64.powi(random.within(0, 900) as i32 - 450);
            nudged(random, side * side * scale)
        }
        4 => {
            let side = of_any_size(random).abs();
            nudged(random, side * side)
        }
        5 => {
            // A power of two: of the least double, 2^0 to 2^51 are subnormal
            let bits = match random.below(2098) as u64 {
                power @ 0..=51 => 1 << power,
                power => (power - 51) << 52,
            };
            nudged(random, f64::from_bits(bits))
        }
        6 => random.unit() * 100.0,
        _ => of_any_size(random).abs(),
    }
}
