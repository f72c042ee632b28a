//! Ray hits on polygons: on corners that the caller lends, and on those of a table, which may hold anything.

use crate::questions::Question;
use crate::raw;
use crate::rays::{hit, Ray, Step};
use std::error::Error;
use std::fmt;

/// The distance at which a ray hits a flat polygon, none if it misses. The last corner is joined to the first; a hole is joined to
/// the rim by an edge that is gone along twice. What is not above [`LEAST`](crate::LEAST) is no hit.
///
/// ```
/// use kribbelsteen::{polygon, Ray};
///
/// let ray = Ray { origin: [0.5, 0.5, -5.0], direction: [0.0, 0.0, 1.0] };
/// assert_eq!(polygon(&ray, &[[0.0, 0.0, 0.0], [2.0, 0.0, 0.0], [0.0, 2.0, 0.0]]), Ok(Some(5.0)));
/// ```
pub fn polygon(ray: &Ray, corners: &[[f64; 3]]) -> Result<Option<f64>, Step> {
    hit(raw::polygon(&ray.numbers(), corners.as_flattened()))
}

/// The same for hits above a least distance, which is at least 0.
pub fn polygon_above(ray: &Ray, corners: &[[f64; 3]], least: f64) -> Result<Option<f64>, Step> {
    hit(raw::polygon_above(&ray.numbers(), corners.as_flattened(), least))
}

/// Why a ray on a polygon of a table is refused.
#[derive(Clone, Copy, Debug, PartialEq, Eq, Hash)]
pub enum PolygonRefusal {
    /// 17 or 18: there is no such primitive, or it is no polygon with its reals in the table.
    Question(Question),
    /// 20 or 21: there is a polygon, and its hit is refused.
    Step(Step),
}

impl PolygonRefusal {
    /// The refusal's number.
    pub fn number(self) -> u32 {
        match self {
            PolygonRefusal::Question(question) => question.number(),
            PolygonRefusal::Step(step) => step.number(),
        }
    }
}

impl fmt::Display for PolygonRefusal {
    fn fmt(&self, f: &mut fmt::Formatter<'_>) -> fmt::Result {
        match self {
            PolygonRefusal::Question(question) => question.fmt(f),
            PolygonRefusal::Step(step) => step.fmt(f),
        }
    }
}

impl Error for PolygonRefusal {}

fn hit_in_table(told: (u32, f64)) -> Result<Option<f64>, PolygonRefusal> {
    match told.0 {
        17 => Err(PolygonRefusal::Question(Question::NoSuchPrimitive)),
        18 => Err(PolygonRefusal::Question(Question::BadTable)),
        _ => hit(told).map_err(PolygonRefusal::Step),
    }
}

/// The distance at which a ray hits the polygon of a number, in a table of so many records, none if it misses. What is not above
/// [`LEAST`](crate::LEAST) is no hit.
pub fn polygon_in_table(
    ray: &Ray,
    records: &[u32],
    count: usize,
    number: usize,
    reals: &[f64],
) -> Result<Option<f64>, PolygonRefusal> {
    hit_in_table(raw::polygon_in_table(&ray.numbers(), records, count, number, reals))
}

/// The same for hits above a least distance, which is at least 0.
pub fn polygon_in_table_above(
    ray: &Ray,
    records: &[u32],
    count: usize,
    number: usize,
    reals: &[f64],
    least: f64,
) -> Result<Option<f64>, PolygonRefusal> {
    hit_in_table(raw::polygon_in_table_above(&ray.numbers(), records, count, number, reals, least))
}
