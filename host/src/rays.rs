//! Ray hits on spheres and rings, Fresnel values, panes of glass and the root.

use crate::raw;
use std::error::Error;
use std::fmt;

/// Why a hit, a reflection or a pane is refused.
#[derive(Clone, Copy, Debug, PartialEq, Eq, Hash)]
#[repr(u32)]
pub enum Step {
    /// 20: an input or a step is NaN or infinite.
    NotFinite = 20,
    /// 21: an input is outside its range.
    OutOfRange = 21,
}

impl Step {
    /// The refusal's number.
    pub fn number(self) -> u32 {
        self as u32
    }

    fn from_number(number: u32) -> Step {
        match number {
            20 => Step::NotFinite,
            21 => Step::OutOfRange,
            _ => unreachable!("the library refuses hits, reflections and panes by 20 and 21"),
        }
    }
}

impl fmt::Display for Step {
    fn fmt(&self, f: &mut fmt::Formatter<'_>) -> fmt::Result {
        f.write_str(match self {
            Step::NotFinite => "an input or a step is NaN or infinite (reason 20)",
            Step::OutOfRange => "an input is outside its range (reason 21)",
        })
    }
}

impl Error for Step {}

/// Where a ray starts and where it goes; the direction may have any length.
#[derive(Clone, Copy, Debug, PartialEq)]
pub struct Ray {
    /// Where it starts.
    pub origin: [f64; 3],
    /// Where it goes: distances are counted in lengths of this.
    pub direction: [f64; 3],
}

impl Ray {
    pub(crate) fn numbers(&self) -> [f64; 6] {
        let ([ox, oy, oz], [dx, dy, dz]) = (self.origin, self.direction);
        [ox, oy, oz, dx, dy, dz]
    }
}

/// The least distance of a call that names none: a ray that leaves a panel does not hit it again.
pub const LEAST: f64 = 0.001;

/// A sphere.
#[derive(Clone, Copy, Debug, PartialEq)]
pub struct Sphere {
    /// Its centre.
    pub centre: [f64; 3],
    /// Its radius, above 0.
    pub radius: f64,
}

/// A flat ring.
#[derive(Clone, Copy, Debug, PartialEq)]
pub struct Ring {
    /// Its centre.
    pub centre: [f64; 3],
    /// A direction that stands on it.
    pub normal: [f64; 3],
    /// Its inner radius, at least 0.
    pub inner: f64,
    /// Its outer radius, above the inner one.
    pub outer: f64,
}

pub(crate) fn hit((outcome, distance): (u32, f64)) -> Result<Option<f64>, Step> {
    match outcome {
        0 => Ok(Some(distance)),
        1 => Ok(None),
        number => Err(Step::from_number(number)),
    }
}

/// The distance at which a ray hits a sphere, none if it misses. What is not above [`LEAST`] is no hit.
///
/// ```
/// use kribbelsteen::{sphere, Ray, Sphere};
///
/// let ray = Ray { origin: [0.0, 0.0, -5.0], direction: [0.0, 0.0, 1.0] };
/// assert_eq!(sphere(&ray, &Sphere { centre: [0.0; 3], radius: 1.0 }), Ok(Some(4.0)));
/// ```
pub fn sphere(ray: &Ray, sphere: &Sphere) -> Result<Option<f64>, Step> {
    let [x, y, z] = sphere.centre;
    hit(raw::sphere(&ray.numbers(), &[x, y, z, sphere.radius]))
}

/// The same for hits above a least distance, which is at least 0.
///
/// ```
/// use kribbelsteen::{sphere_above, Ray, Sphere};
///
/// let ray = Ray { origin: [0.0, 0.0, -5.0], direction: [0.0, 0.0, 1.0] };
/// assert_eq!(sphere_above(&ray, &Sphere { centre: [0.0; 3], radius: 1.0 }, 4.5), Ok(Some(6.0)));
/// ```
pub fn sphere_above(ray: &Ray, sphere: &Sphere, least: f64) -> Result<Option<f64>, Step> {
    let [x, y, z] = sphere.centre;
    hit(raw::sphere_above(&ray.numbers(), &[x, y, z, sphere.radius], least))
}

impl Ring {
    fn numbers(&self) -> [f64; 8] {
        let ([cx, cy, cz], [nx, ny, nz]) = (self.centre, self.normal);
        [cx, cy, cz, nx, ny, nz, self.inner, self.outer]
    }
}

/// The distance at which a ray hits a ring, none if it misses. What is not above [`LEAST`] is no hit.
pub fn ring(ray: &Ray, ring: &Ring) -> Result<Option<f64>, Step> {
    hit(raw::ring(&ray.numbers(), &ring.numbers()))
}

/// The same for hits above a least distance, which is at least 0.
pub fn ring_above(ray: &Ray, ring: &Ring, least: f64) -> Result<Option<f64>, Step> {
    hit(raw::ring_above(&ray.numbers(), &ring.numbers(), least))
}

/// How light is reflected where two media meet.
#[derive(Clone, Copy, Debug, PartialEq)]
pub enum Reflection {
    /// Fresnel's coefficients, each from 0 to 1.
    Coefficients {
        /// For light polarised across the plane of incidence.
        te: f64,
        /// For light polarised along it.
        tm: f64,
        /// The mean of both: for light that is not polarised.
        f: f64,
    },
    /// All light is reflected.
    Total,
}

/// How light is reflected that comes at a cosine from the first medium to the second, whose refractive indices are n1 and n2.
///
/// ```
/// use kribbelsteen::{fresnel, Reflection};
///
/// assert_eq!(fresnel(1.0, 1.0, 3.0), Ok(Reflection::Coefficients { te: 0.25, tm: 0.25, f: 0.25 }));
/// assert_eq!(fresnel(0.5, 2.0, 1.0), Ok(Reflection::Total));
/// ```
pub fn fresnel(cos1: f64, n1: f64, n2: f64) -> Result<Reflection, Step> {
    match raw::fresnel(cos1, n1, n2) {
        (0, [te, tm, f]) => Ok(Reflection::Coefficients { te, tm, f }),
        (1, _) => Ok(Reflection::Total),
        (number, _) => Err(Step::from_number(number)),
    }
}

/// What becomes of light that comes to a pane of glass, all reflections between its two sides counted, but for the colour.
#[derive(Clone, Copy, Debug, PartialEq)]
pub struct Factors {
    /// How much of it goes through.
    pub through: f64,
    /// How much of it comes back.
    pub back: f64,
}

/// The factors of a pane from Fresnel's coefficients of one side, and from what is left of the light that crosses it once. Each is from
/// 0 to 1.
///
/// ```
/// use kribbelsteen::{pane_factors, Factors, Step};
///
/// assert_eq!(pane_factors(0.5, 0.5, 0.0), Ok(Factors { through: 0.25, back: 0.5 }));
/// assert_eq!(pane_factors(1.0, 0.5, 1.0), Err(Step::NotFinite));
/// ```
pub fn pane_factors(te: f64, tm: f64, ct: f64) -> Result<Factors, Step> {
    match raw::pane_factors(te, tm, ct) {
        (0, [through, back]) => Ok(Factors { through, back }),
        (number, _) => Err(Step::from_number(number)),
    }
}

/// The transmissivity of glass from its transmittance, which is above 0 and at most 1. It is below 0 for a transmittance under about
/// 0.0001.
///
/// ```
/// use kribbelsteen::{transmissivity, Step};
///
/// let clear = transmissivity(0.88)?;
/// assert!((0.95..0.97).contains(&clear));
/// assert_eq!(transmissivity(0.0), Err(Step::OutOfRange));
/// # Ok::<(), Step>(())
/// ```
pub fn transmissivity(transmittance: f64) -> Result<f64, Step> {
    match raw::transmissivity(transmittance) {
        (0, transmissivity) => Ok(transmissivity),
        (number, _) => Err(Step::from_number(number)),
    }
}

/// The largest double whose exact square is at most x; none below 0, for an infinity and for NaN.
///
/// ```
/// assert_eq!(kribbelsteen::root(6.25), Some(2.5));
/// assert_eq!(kribbelsteen::root(-1.0), None);
/// ```
pub fn root(x: f64) -> Option<f64> {
    Some(raw::root(x)).filter(|root| !root.is_nan())
}
