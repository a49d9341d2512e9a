//! The codes of tasks, in the order of include/axis.h.

/// What the index of a task names.
#[derive(Clone, Copy, Debug, PartialEq, Eq)]
pub enum Index {
    /// Nothing: it is 0.
    Zero,
    Exponent,
    Direction,
}

/// The name of each code, and what its index names.
pub const CODES: [(&str, Index); 11] = [
    ("expm", Index::Zero),
    ("logm", Index::Zero),
    ("sqrtm", Index::Zero),
    ("powm", Index::Exponent),
    ("cosm", Index::Zero),
    ("sinm", Index::Zero),
    ("frechet_expm", Index::Direction),
    ("frechet_logm", Index::Direction),
    ("frechet_sqrtm", Index::Direction),
    ("cond_expm", Index::Zero),
    ("frechet_sqrtm_sylvester", Index::Direction),
];
