//! Stand-in for the crate bytemuck: the one trait that the source names, for f64 and f32.

pub trait Zeroable: Sized {
    fn zeroed() -> Self;
}

impl Zeroable for f64 {
    fn zeroed() -> f64 {
        0.0
    }
}

impl Zeroable for f32 {
    fn zeroed() -> f32 {
        0.0
    }
}
