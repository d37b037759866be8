//! Stands in for the registry crates `aligned_vec`, `az`, `nonmax` and
//! `tracing`. The crate root names itself as each of them, so what the source
//! imports from them is found here.

/// `aligned_vec`: only the name of the type stems are kept in.
pub type AVec<T> = Vec<T>;

/// `nonmax`: held in the mapped leaf resolution, which no lent tree has.
#[derive(Clone, Copy, Debug, PartialEq)]
pub struct NonMaxUsize(usize);

impl NonMaxUsize {
    pub fn new(value: usize) -> Option<Self> {
        (value != usize::MAX).then_some(Self(value))
    }
    pub fn get(self) -> usize {
        self.0
    }
}

/// `az`: the casts between unlike types. A lent tree needs none, the source's
/// list of casts has to compile.
pub trait CastFrom<Src> {
    fn cast_from(src: Src) -> Self;
}

macro_rules! casts {
    ($src:ty => $($dst:ty),+) => {
        $(impl CastFrom<$src> for $dst {
            fn cast_from(src: $src) -> Self {
                src as $dst
            }
        })+
    };
}
casts!(f32 => f64, u8, u16, u32);
casts!(f64 => f32, u8, u16, u32);
casts!(u8 => f32, f64, u16, u32);
casts!(u16 => f32, f64, u8, u32);
casts!(u32 => f32, f64, u8, u16);

/// `tracing`: the log line of a single-point query, which no join makes.
macro_rules! no_trace {
    ($($ignored:tt)*) => {};
}
pub(crate) use no_trace as trace;
