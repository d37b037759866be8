//! The joins with their numbers as the library gives them: for those who
//! compare numbers. [`Outcome::from`](crate::Outcome) reads them.

use crate::{c, NearestRooms, Rooms, Tree};

/// The refusal's number (0 for none), and the six numbers of the answer.
#[derive(Clone, Copy, Debug, PartialEq, Eq)]
pub struct Numbers {
    pub refusal: u32,
    /// 0 left, 1 right; 0 for refusals 0, 1, 8 and 9.
    pub side: u64,
    pub found: u64,
    pub visits: u64,
    pub measured: u64,
    pub ruled_out: u64,
    pub taken_whole: u64,
}

// SAFETY of the calls below: pointers and lengths are those of slices that
// nobody else writes during the call, none of them null; the rooms and the
// answer are lent mutably, so they overlap nothing. The library tests all else.

/// Calls a function over two trees: what comes first, both trees, the rooms.
macro_rules! join {
    ($call:path, ($($first:expr),*), $l:expr, $r:expr, ($($rooms:expr),*)) => {{
        let mut six = [0; 6];
        let refusal = unsafe {
            $call(
                $($first,)*
                $l.starts.as_ptr(),
                $l.starts.len(),
                $l.stems.as_ptr(),
                $l.stems.len(),
                $l.items.as_ptr(),
                $l.items.len(),
                $l.coords.as_ptr(),
                $l.coords.len(),
                $r.starts.as_ptr(),
                $r.starts.len(),
                $r.stems.as_ptr(),
                $r.stems.len(),
                $r.items.as_ptr(),
                $r.items.len(),
                $r.coords.as_ptr(),
                $r.coords.len(),
                $($rooms.as_mut_ptr(), $rooms.len(),)*
                &mut six,
            )
        };
        let [side, found, visits, measured, ruled_out, taken_whole] = six;
        Numbers {
            refusal,
            side,
            found,
            visits,
            measured,
            ruled_out,
            taken_whole,
        }
    }};
}

/// Pairs whose squared distance is at most the radius, in walk order.
pub fn pairs_up_to(k: u32, radius: f64, left: Tree, right: Tree, to: Rooms) -> Numbers {
    let Rooms {
        left: l,
        right: r,
        distance: d,
    } = to;
    join!(c::oul_pairs_up_to, (k, radius), left, right, (l, r, d))
}

/// Pairs whose squared distance is below the radius, in walk order.
pub fn pairs_under(k: u32, radius: f64, left: Tree, right: Tree, to: Rooms) -> Numbers {
    let Rooms {
        left: l,
        right: r,
        distance: d,
    } = to;
    join!(c::oul_pairs_under, (k, radius), left, right, (l, r, d))
}

/// How many pairs have a squared distance of at most the radius.
pub fn counts_up_to(k: u32, radius: f64, left: Tree, right: Tree) -> Numbers {
    join!(c::oul_counts_up_to, (k, radius), left, right, ())
}

/// How many pairs have a squared distance below the radius.
pub fn counts_under(k: u32, radius: f64, left: Tree, right: Tree) -> Numbers {
    join!(c::oul_counts_under, (k, radius), left, right, ())
}

/// The nearest right item of each left point, in left place order.
pub fn nearest(k: u32, left: Tree, right: Tree, to: NearestRooms) -> Numbers {
    let NearestRooms { items, distance } = to;
    join!(c::oul_nearest, (k), left, right, (items, distance))
}
