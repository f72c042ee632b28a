//! How long the library takes for spheres, rings, polygons, Fresnel values and roots, beside routines in Rust on the same cases, in one run.
//!
//! There are a million cases of each, made from a seed, in a hundred rounds. In each round the contenders take turns, each time
//! another one first, so that all meet the same state of the machine. Every time is the median of the rounds. Each round has cases
//! of its own, few enough for the processor's cache, and too many for its branch predictor to remember from one turn to the next:
//! with 2,000 it remembered some of a root's digits, some 5 % of the time. After each round all its answers are compared.
//!
//! The checked routines give the library's bits, refusals included. The plain ones know no refusals; else their answers are of the
//! same kind. Their steps are the same but for the root, whose last place may differ, and for the order in which a polygon's products
//! are added up: rings are equal, spheres within 1e-12, polygons within 1e-9 and Fresnel values within 1e-14, and with the library's
//! root put in all but the polygons are equal.
//!
//! - library: the raw calls.
//! - checked: `reference/rays.rs`. It tests each step too, and corrects the processor's root where that was rounded up.
//! - by digits: `reference/plain.rs` with the library's root put in. The library's time over this one is what its tests cost, and
//!   the call, which the compiler cannot merge into the loop.
//! - plain: `reference/plain.rs` with `f64::sqrt`; for the root, `f64::sqrt` itself.

#[path = "../reference/mod.rs"]
mod reference;

use kribbelsteen::raw;
use reference::random::Random;
use reference::rays::LEAST;
use reference::{plain, rays};
use std::hint::black_box;
use std::time::Instant;

const CASES: usize = 1_000_000;
const ROUND: usize = 10_000;
const SEED: u64 = 1;

// ---- cases

type Vector = [f64; 3];
type RayAndSphere = ([f64; 6], [f64; 4]);
type RayAndRing = ([f64; 6], [f64; 8]);
type RayAndPolygon = ([f64; 6], Vec<f64>);

fn between(random: &mut Random, low: f64, high: f64) -> f64 {
    low + (high - low) * random.unit()
}

fn dot(a: Vector, b: Vector) -> f64 {
    (0..3).map(|k| a[k] * b[k]).sum()
}

/// a+t*b.
fn plus(a: Vector, t: f64, b: Vector) -> Vector {
    std::array::from_fn(|k| a[k] + t * b[k])
}

/// A direction of length 1.
fn direction(random: &mut Random) -> Vector {
    loop {
        let v: Vector = std::array::from_fn(|_| between(random, -1.0, 1.0));
        let square = dot(v, v);
        if (0.01..=1.0).contains(&square) {
            return v.map(|x| x / square.sqrt());
        }
    }
}

/// A direction of length 1 that stands on another.
fn across(random: &mut Random, n: Vector) -> Vector {
    loop {
        let v = direction(random);
        let v = plus(v, -dot(v, n), n);
        let square = dot(v, v);
        if square > 0.01 {
            return v.map(|x| x / square.sqrt());
        }
    }
}

fn point(random: &mut Random) -> Vector {
    std::array::from_fn(|_| between(random, -10.0, 10.0))
}

/// From an origin on in a direction, in steps of some length.
fn ray(random: &mut Random, o: Vector, d: Vector) -> [f64; 6] {
    let length = between(random, 0.5, 2.0);
    let [dx, dy, dz] = d.map(|x| x * length);
    [o[0], o[1], o[2], dx, dy, dz]
}

fn not_finite(random: &mut Random) -> f64 {
    *random.pick(&[f64::NAN, f64::INFINITY, f64::NEG_INFINITY])
}

/// A ray and a sphere. Of a hundred, 55 hit it from outside and 10 from inside; 20 pass it, 10 leave it behind; 5 are refused, each
/// with the same chance for an input that is not finite, a direction too long to be squared, one of length 0, and a radius of 0.
fn sphere(random: &mut Random) -> RayAndSphere {
    let (centre, radius) = (point(random), between(random, 0.5, 5.0));
    let away = direction(random);
    let outside = plus(centre, radius + between(random, 0.1, 20.0), away);
    let mut shape = [centre[0], centre[1], centre[2], radius];
    // Some point in the sphere, seen from outside
    let within = plus(centre, radius * between(random, 0.0, 0.99), direction(random));
    let ahead = plus(within, -1.0, outside);
    let ray = match random.below(100) {
        0..=54 => ray(random, outside, ahead),
        55..=64 => {
            let d = direction(random);
            ray(random, within, d)
        }
        65..=84 => {
            let side = across(random, away);
            let beside = plus(outside, radius * between(random, 1.01, 3.0), side);
            ray(random, beside, away.map(|x| -x))
        }
        85..=94 => ray(random, outside, ahead.map(|x| -x)),
        _ => {
            let mut ray = ray(random, outside, ahead);
            match random.below(4) {
                0 => ray[random.below(6)] = not_finite(random),
                1 => ray[3..].iter_mut().for_each(|x| *x *= 1e200),
                2 => ray[3..].fill(0.0),
                _ => shape[3] = 0.0,
            }
            ray
        }
    };
    (ray, shape)
}

/// A ray and a ring. Of a hundred, 60 hit it; 15 go through its hole, or past it if it has none, 15 leave it behind, 5 are parallel
/// to it; 5 are refused, each with the same chance for an input that is not finite, a radius too long to be squared, and equal
/// radii.
fn ring(random: &mut Random) -> RayAndRing {
    let (centre, normal) = (point(random), direction(random));
    let inner = if random.percent(20) { 0.0 } else { between(random, 0.1, 3.0) };
    let outer = inner + between(random, 0.1, 3.0);
    let length = between(random, 0.5, 2.0);
    let [nx, ny, nz] = normal.map(|x| x * length);
    let mut shape = [centre[0], centre[1], centre[2], nx, ny, nz, inner, outer];
    let away = loop {
        let v = direction(random);
        if dot(v, normal).abs() > 0.05 {
            break v;
        }
    };
    let side = across(random, normal);
    let edge = 0.01 * (outer - inner);
    let on_it = plus(centre, between(random, inner + edge, outer - edge), side);
    let past = if inner > 0.0 { 0.99 * inner * random.unit() } else { outer * between(random, 1.01, 3.0) };
    let off_it = plus(centre, past, side);
    let far = between(random, 0.1, 20.0);
    let ahead = away.map(|x| -x);
    let ray = match random.below(100) {
        0..=59 => ray(random, plus(on_it, far, away), ahead),
        60..=74 => ray(random, plus(off_it, far, away), ahead),
        75..=89 => ray(random, plus(on_it, far, away), away),
        90..=94 => {
            shape[3..6].copy_from_slice(&[0.0, 0.0, nz]);
            ray(random, plus(on_it, far, away), [ahead[0], ahead[1], 0.0])
        }
        _ => {
            let mut ray = ray(random, plus(on_it, far, away), ahead);
            match random.below(3) {
                0 => ray[random.below(6)] = not_finite(random),
                1 => shape[7] = 1e200,
                _ => shape[7] = inner,
            }
            ray
        }
    };
    (ray, shape)
}

/// A ray and a convex polygon of four to eight corners. Of a hundred, 60 hit it; 20 go past it, 15 leave it behind; 5 are refused,
/// each with the same chance for an input that is not finite, a corner too far off to be multiplied, and corners on one line.
fn polygon(random: &mut Random) -> RayAndPolygon {
    let (centre, normal) = (point(random), direction(random));
    let u = across(random, normal);
    let v =
        [normal[1] * u[2] - normal[2] * u[1], normal[2] * u[0] - normal[0] * u[2], normal[0] * u[1] - normal[1] * u[0]];
    let (count, size, start) = (4 + random.below(5), between(random, 0.5, 5.0), between(random, 0.0, 1.0));
    let at = |part: f64, far: f64| {
        let angle = std::f64::consts::TAU * part;
        plus(plus(centre, far * angle.cos(), u), far * angle.sin(), v)
    };
    let mut corners: Vec<f64> = (0..count).flat_map(|k| at(start + k as f64 / count as f64, size)).collect();
    let away = loop {
        let v = direction(random);
        if dot(v, normal).abs() > 0.05 {
            break v;
        }
    };
    let part = random.unit();
    // A square's sides are 0.7 of its corners' distance away
    let (on_it, off_it) = (at(part, size * between(random, 0.0, 0.7)), at(part, size * between(random, 1.01, 3.0)));
    let far = between(random, 0.1, 20.0);
    let ahead = away.map(|x| -x);
    let ray = match random.below(100) {
        0..=59 => ray(random, plus(on_it, far, away), ahead),
        60..=79 => ray(random, plus(off_it, far, away), ahead),
        80..=94 => ray(random, plus(on_it, far, away), away),
        _ => {
            let mut ray = ray(random, plus(on_it, far, away), ahead);
            match random.below(3) {
                0 => ray[random.below(6)] = not_finite(random),
                1 => corners[..3].fill(1e308),
                _ => corners = vec![0.0, 0.0, 0.0, 1.0, 1.0, 1.0, 3.0, 3.0, 3.0],
            }
            ray
        }
    };
    (ray, corners)
}

/// A cosine and two indices. Of a hundred, 80 have coefficients and 15 are total reflection; 5 are refused, each with the same
/// chance for an input that is not finite, a cosine above 1, and grazing light with equal indices.
fn fresnel(random: &mut Random) -> [f64; 3] {
    let (n1, n2) = (between(random, 1.0, 2.5), between(random, 1.0, 2.5));
    let (low, high) = if n1 < n2 { (n1, n2) } else { (n2, n1) };
    // Where total reflection begins, from the denser side
    let critical = |from: f64, to: f64| (1.0 - (to / from) * (to / from)).max(0.0).sqrt();
    match random.below(100) {
        0..=79 => [between(random, critical(n1, n2), 1.0), n1, n2],
        80..=94 => [0.999 * critical(high, low) * random.unit(), high, low],
        _ => match random.below(3) {
            0 => [random.unit(), not_finite(random), n2],
            1 => [between(random, 1.01, 2.0), n1, n2],
            _ => [0.0, n1, n1],
        },
    }
}

/// A number whose root is asked for. Of a hundred, 48 are from 0 to 100, 48 of any size, 2 subnormal; 2 have no root.
fn root(random: &mut Random) -> f64 {
    match random.below(100) {
        0..=47 => between(random, 0.0, 100.0),
        48..=95 => f64::from_bits((1 + random.bits() % 2046) << 52 | random.bits() >> 12),
        96..=97 => f64::from_bits(random.bits() >> 12),
        98 => -random.unit(),
        _ => f64::INFINITY,
    }
}

// ---- answers compared

/// 0 for an answer, 1 for none (a miss, total reflection, no root), 2 for a refusal.
type Kind = usize;

fn kind(outcome: u32) -> Kind {
    outcome.min(2) as Kind
}

/// Whether a number is within a tolerance of another, as a part of it from 1 on.
fn near(a: f64, b: f64, tolerance: f64) -> bool {
    (a - b).abs() <= tolerance * b.abs().max(1.0)
}

fn sphere_alike((ray, sphere): &RayAndSphere) -> Kind {
    let by_digits = plain::sphere(ray, sphere, LEAST, raw::root);
    let plain = plain::sphere(ray, sphere, LEAST, f64::sqrt);
    hit_alike(raw::sphere(ray, sphere), rays::sphere(ray, sphere, LEAST), &[(by_digits, 0.0), (plain, 1e-12)])
}

fn ring_alike((ray, ring): &RayAndRing) -> Kind {
    hit_alike(raw::ring(ray, ring), rays::ring(ray, ring, LEAST), &[(plain::ring(ray, ring, LEAST), 0.0)])
}

/// The plain routine adds the products up from another edge on, so distances differ in their last places.
fn polygon_alike((ray, corners): &RayAndPolygon) -> Kind {
    let plain = plain::polygon(ray, corners, LEAST);
    hit_alike(raw::polygon(ray, corners), rays::polygon(ray, corners, LEAST), &[(plain, 1e-9)])
}

/// The checked routine gives the same bits in all cases, and the plain ones, each with its tolerance, the same hits and misses. What
/// these make of a refusal does not count.
fn hit_alike((outcome, at): (u32, f64), checked: rays::Hit, plain: &[(Option<f64>, f64)]) -> Kind {
    let expected = match checked {
        Ok(Some(t)) => (0, t.to_bits()),
        Ok(None) => (1, 0),
        Err(number) => (number, 0),
    };
    assert_eq!((outcome, at.to_bits()), expected, "the checked routine differs");
    for &(hit, tolerance) in plain {
        match outcome {
            0 => assert!(hit.is_some_and(|t| near(t, at, tolerance)), "{at} is {hit:?} in the plain routine"),
            1 => assert_eq!(hit, None, "the plain routine has a hit"),
            _ => {}
        }
    }
    kind(outcome)
}

fn fresnel_alike(&[cos1, n1, n2]: &[f64; 3]) -> Kind {
    let (outcome, values) = raw::fresnel(cos1, n1, n2);
    let expected = match rays::fresnel(cos1, n1, n2) {
        Ok(Some(values)) => (0, values.map(f64::to_bits)),
        Ok(None) => (1, [0; 3]),
        Err(number) => (number, [0; 3]),
    };
    assert_eq!((outcome, values.map(f64::to_bits)), expected, "the checked routine differs");
    let (by_digits, plain) = (plain::fresnel(cos1, n1, n2, raw::root), plain::fresnel(cos1, n1, n2, f64::sqrt));
    match outcome {
        0 => {
            assert_eq!(by_digits, Some(values), "the plain routine with the same root differs");
            let close = |plain: [f64; 3]| (0..3).all(|k| near(plain[k], values[k], 1e-14));
            assert!(plain.is_some_and(close), "{values:?} are {plain:?} in the plain routine");
        }
        1 => assert_eq!((by_digits, plain), (None, None), "the plain routine has coefficients"),
        _ => {}
    }
    kind(outcome)
}

fn root_alike(&x: &f64) -> Kind {
    let (ours, checked, nearest) = (raw::root(x), rays::root(x), x.sqrt());
    if checked.is_nan() {
        assert!(ours.is_nan(), "{x} has no root");
        return 1;
    }
    assert_eq!(ours.to_bits(), checked.to_bits(), "the checked root of {x} differs");
    assert!(nearest == ours || nearest == ours.next_up(), "{ours} is not next to the processor's root of {x}");
    0
}

// ---- what is timed

/// Nanoseconds for one call, over all cases.
fn time<C, A>(cases: &[C], call: impl Fn(&C) -> A) -> f64 {
    let start = Instant::now();
    for case in cases {
        black_box(call(case));
    }
    start.elapsed().as_secs_f64() * 1e9 / cases.len() as f64
}

fn median(mut times: Vec<f64>) -> f64 {
    times.sort_by(f64::total_cmp);
    times[times.len() / 2]
}

/// Nanoseconds for one call, over a round's cases.
type Contender<C> = fn(&[C]) -> f64;

struct Contenders<C> {
    library: Contender<C>,
    checked: Contender<C>,
    by_digits: Option<Contender<C>>,
    plain: Contender<C>,
}

fn report<C>(what: &str, make: fn(&mut Random) -> C, alike: fn(&C) -> Kind, contenders: Contenders<C>) {
    let Contenders { library, checked, by_digits, plain } = contenders;
    let contenders = [Some(library), Some(checked), by_digits, Some(plain)];
    let mut times = contenders.map(|_| Vec::with_capacity(CASES / ROUND));
    let turns: Vec<(usize, Contender<C>)> =
        contenders.into_iter().enumerate().filter_map(|(at, contender)| Some((at, contender?))).collect();
    let mut random = Random::new(SEED);
    let mut kinds = [0; 3];
    for round in 0..CASES / ROUND {
        let cases: Vec<C> = (0..ROUND).map(|_| make(&mut random)).collect();
        for turn in 0..turns.len() {
            let (at, contender) = turns[(round + turn) % turns.len()];
            times[at].push(contender(&cases));
        }
        cases.iter().for_each(|case| kinds[alike(case)] += 1);
    }
    let [answers, none, refused] = kinds.map(|n| 100.0 * n as f64 / CASES as f64);
    let [library, checked, by_digits, plain] = times.map(|times| (!times.is_empty()).then(|| median(times)));
    let [over_checked, over_digits, over_plain] =
        [checked, by_digits, plain].map(|other| library.zip(other).map(|(ours, other)| ours / other));
    let number = |x: Option<f64>| x.map_or(String::from("-"), |x| format!("{x:.2}"));
    println!(
        "{what:<8} {answers:>7.1} {none:>7.1} {refused:>7.1} | {:>8} {:>8} {:>9} {:>8} | {:>8} {:>9} {:>8}",
        number(library),
        number(checked),
        number(by_digits),
        number(plain),
        number(over_checked),
        number(over_digits),
        number(over_plain),
    );
}

fn main() {
    println!("{CASES} cases each. Kinds in percent, nanoseconds for a call, and the library's over the others':");
    println!(
        "{:<8} {:>7} {:>7} {:>7} | {:>8} {:>8} {:>9} {:>8} | {:>8} {:>9} {:>8}",
        "", "answer", "none", "refused", "library", "checked", "by digits", "plain", "/checked", "/by dig.", "/plain"
    );
    let spheres: Contenders<RayAndSphere> = Contenders {
        library: |cases| time(cases, |(ray, sphere)| raw::sphere(ray, sphere)),
        checked: |cases| time(cases, |(ray, sphere)| rays::sphere(ray, sphere, LEAST)),
        by_digits: Some(|cases| time(cases, |(ray, sphere)| plain::sphere(ray, sphere, LEAST, raw::root))),
        plain: |cases| time(cases, |(ray, sphere)| plain::sphere(ray, sphere, LEAST, f64::sqrt)),
    };
    report("sphere", sphere, sphere_alike, spheres);
    let rings: Contenders<RayAndRing> = Contenders {
        library: |cases| time(cases, |(ray, ring)| raw::ring(ray, ring)),
        checked: |cases| time(cases, |(ray, ring)| rays::ring(ray, ring, LEAST)),
        by_digits: None,
        plain: |cases| time(cases, |(ray, ring)| plain::ring(ray, ring, LEAST)),
    };
    report("ring", ring, ring_alike, rings);
    let polygons: Contenders<RayAndPolygon> = Contenders {
        library: |cases| time(cases, |(ray, corners)| raw::polygon(ray, corners)),
        checked: |cases| time(cases, |(ray, corners)| rays::polygon(ray, corners, LEAST)),
        by_digits: None,
        plain: |cases| time(cases, |(ray, corners)| plain::polygon(ray, corners, LEAST)),
    };
    report("polygon", polygon, polygon_alike, polygons);
    let reflections: Contenders<[f64; 3]> = Contenders {
        library: |cases| time(cases, |&[cos1, n1, n2]| raw::fresnel(cos1, n1, n2)),
        checked: |cases| time(cases, |&[cos1, n1, n2]| rays::fresnel(cos1, n1, n2)),
        by_digits: Some(|cases| time(cases, |&[cos1, n1, n2]| plain::fresnel(cos1, n1, n2, raw::root))),
        plain: |cases| time(cases, |&[cos1, n1, n2]| plain::fresnel(cos1, n1, n2, f64::sqrt)),
    };
    report("Fresnel", fresnel, fresnel_alike, reflections);
    let roots: Contenders<f64> = Contenders {
        library: |cases| time(cases, |&x| raw::root(x)),
        checked: |cases| time(cases, |&x| rays::root(x)),
        by_digits: None,
        plain: |cases| time(cases, |&x| x.sqrt()),
    };
    report("root", root, root_alike, roots);
}
