//! The types of primitives.

use std::fmt;

/// A primitive's type. The numbers are those of a record.
#[derive(Clone, Copy, Debug, PartialEq, Eq, Hash, PartialOrd, Ord)]
#[repr(u32)]
#[allow(missing_docs)]
pub enum Type {
    Source = 1,
    Sphere = 2,
    Bubble = 3,
    Polygon = 4,
    Cone = 5,
    Cup = 6,
    Cylinder = 7,
    Tube = 8,
    Ring = 9,
    Light = 10,
    Illum = 11,
    Glow = 12,
    Spotlight = 13,
    Mirror = 14,
    Plastic = 15,
    Metal = 16,
    Trans = 17,
    Plastic2 = 18,
    Metal2 = 19,
    Trans2 = 20,
    Dielectric = 21,
    Interface = 22,
    Glass = 23,
    Antimatter = 24,
    Mixfunc = 25,
}

const ALL: [(Type, &str); 25] = [
    (Type::Source, "source"),
    (Type::Sphere, "sphere"),
    (Type::Bubble, "bubble"),
    (Type::Polygon, "polygon"),
    (Type::Cone, "cone"),
    (Type::Cup, "cup"),
    (Type::Cylinder, "cylinder"),
    (Type::Tube, "tube"),
    (Type::Ring, "ring"),
    (Type::Light, "light"),
    (Type::Illum, "illum"),
    (Type::Glow, "glow"),
    (Type::Spotlight, "spotlight"),
    (Type::Mirror, "mirror"),
    (Type::Plastic, "plastic"),
    (Type::Metal, "metal"),
    (Type::Trans, "trans"),
    (Type::Plastic2, "plastic2"),
    (Type::Metal2, "metal2"),
    (Type::Trans2, "trans2"),
    (Type::Dielectric, "dielectric"),
    (Type::Interface, "interface"),
    (Type::Glass, "glass"),
    (Type::Antimatter, "antimatter"),
    (Type::Mixfunc, "mixfunc"),
];

impl Type {
    /// The type of a number; none outside 1 to 25.
    pub fn from_number(number: u32) -> Option<Type> {
        let at = usize::try_from(number).ok()?.checked_sub(1)?;
        ALL.get(at).map(|&(kind, _)| kind)
    }

    /// The word that names the type in a scene.
    pub fn word(self) -> &'static str {
        ALL[self as usize - 1].1
    }

    /// Source to ring.
    pub fn is_surface(self) -> bool {
        self <= Type::Ring
    }

    /// Light to antimatter: what a finish can be.
    pub fn is_material(self) -> bool {
        Type::Light <= self && self <= Type::Antimatter
    }
}

impl fmt::Display for Type {
    fn fmt(&self, f: &mut fmt::Formatter<'_>) -> fmt::Result {
        f.write_str(self.word())
    }
}
