//! The library's C interface: a slice is passed as pointer and length, the six
//! numbers of the answer go to an array.

/// Declares a function over two trees: what comes before them, and after.
macro_rules! over_trees {
    ($name:ident, ( $($first:ident : $before:ty),* ), ( $($last:ident : $type:ty),* )) => {
        pub fn $name(
            k: u32,
            $($first: $before,)*
            lstarts: *const u32,
            lstarts_len: usize,
            lstems: *const f64,
            lstems_len: usize,
            litems: *const u32,
            litems_len: usize,
            lcoords: *const f64,
            lcoords_len: usize,
            rstarts: *const u32,
            rstarts_len: usize,
            rstems: *const f64,
            rstems_len: usize,
            ritems: *const u32,
            ritems_len: usize,
            rcoords: *const f64,
            rcoords_len: usize,
            $($last: $type,)*
            answer: *mut [u64; 6],
        ) -> u32;
    };
}

macro_rules! over_trees_and_rooms {
    ($name:ident) => {
        over_trees!(
            $name,
            (radius: f64),
            (
                lout: *mut u32,
                lout_len: usize,
                rout: *mut u32,
                rout_len: usize,
                dout: *mut f64,
                dout_len: usize
            )
        );
    };
}

macro_rules! over_trees_and_answers {
    ($name:ident) => {
        over_trees!(
            $name,
            (),
            (
                items: *mut u32,
                items_len: usize,
                dists: *mut f64,
                dists_len: usize
            )
        );
    };
}

extern "C" {
    over_trees_and_rooms!(oul_pairs_up_to);
    over_trees_and_rooms!(oul_pairs_under);
    over_trees!(oul_counts_up_to, (radius: f64), ());
    over_trees!(oul_counts_under, (radius: f64), ());
    over_trees_and_answers!(oul_nearest);
    pub fn oul_radius_of(r: f64) -> f64;
}
