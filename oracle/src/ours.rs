//! The Rattle library `beside`: a slice arrives there as pointer
//! and length, an array as pointer.

/// One side of a leaf pair: a tree's items and coordinates, and the places of
/// the leaf in them.
#[derive(Clone, Copy)]
pub struct Leaf<'a> {
    pub items: &'a [u32],
    pub coords: &'a [f64],
    pub start: usize,
    pub end: usize,
}

/// Where pairs are stored: left items, right items, distances.
pub struct Out<'a> {
    pub left: &'a mut [u32],
    pub right: &'a mut [u32],
    pub distance: &'a mut [f64],
}

mod c {
    extern "C" {
        pub fn oul_leaf_pairs(
            k: u32,
            radius: f64,
            under: bool,
            litems: *const u32,
            ln: usize,
            lcoords: *const f64,
            lcn: usize,
            ls: usize,
            lend: usize,
            ritems: *const u32,
            rn: usize,
            rcoords: *const f64,
            rcn: usize,
            rs: usize,
            rend: usize,
            lout: *mut u32,
            lroom: usize,
            rout: *mut u32,
            rroom: usize,
            dout: *mut f64,
            droom: usize,
        ) -> u64;
        pub fn oul_leaf_counts(
            k: u32,
            radius: f64,
            under: bool,
            litems: *const u32,
            ln: usize,
            lcoords: *const f64,
            lcn: usize,
            ls: usize,
            lend: usize,
            ritems: *const u32,
            rn: usize,
            rcoords: *const f64,
            rcn: usize,
            rs: usize,
            rend: usize,
        ) -> u64;
        pub fn oul_update_leaf(
            k: u32,
            litems: *const u32,
            ln: usize,
            lcoords: *const f64,
            lcn: usize,
            ls: usize,
            lend: usize,
            ritems: *const u32,
            rn: usize,
            rcoords: *const f64,
            rcn: usize,
            rs: usize,
            rend: usize,
            items: *mut u32,
            items_len: usize,
            dists: *mut f64,
            dists_len: usize,
        ) -> u32;
        pub fn oul_distance(
            k: u32,
            lcoords: *const f64,
            lcn: usize,
            ln: usize,
            p: usize,
            rcoords: *const f64,
            rcn: usize,
            rn: usize,
            q: usize,
        ) -> f64;
        pub fn oul_lower(min: *const f64, max: *const f64, k: u32) -> f64;
        pub fn oul_upper(min: *const f64, max: *const f64, k: u32) -> f64;
        pub fn oul_accepts(distance: f64, radius: f64, under: bool) -> bool;
        pub fn oul_beyond(bound: f64, radius: f64, under: bool) -> bool;
        pub fn oul_check(
            k: u32,
            starts: *const u32,
            starts_len: usize,
            stems: *const f64,
            stems_len: usize,
            items: *const u32,
            items_len: usize,
            coords: *const f64,
            coords_len: usize,
        ) -> u32;
    }
}

/// What the leaf functions answer when the arguments are no leaf pair.
pub const NO_LEAF_PAIR: u64 = u64::MAX;

// SAFETY of every call below: pointers and lengths are those of slices, and
// the library tests the other arguments itself.

/// Calls a leaf function: what comes first, both leaves, what comes last.
macro_rules! on_leaves {
    ($call:path, ($($first:expr),*), $l:expr, $r:expr, ($($last:expr),*)) => {
        unsafe {
            $call(
                $($first,)*
                $l.items.as_ptr(),
                $l.items.len(),
                $l.coords.as_ptr(),
                $l.coords.len(),
                $l.start,
                $l.end,
                $r.items.as_ptr(),
                $r.items.len(),
                $r.coords.as_ptr(),
                $r.coords.len(),
                $r.start,
                $r.end,
                $($last),*
            )
        }
    };
}

/// Pairs found; the first that fit are stored.
#[inline(always)]
pub fn leaf_pairs(k: u32, radius: f64, under: bool, l: Leaf, r: Leaf, out: Out) -> u64 {
    let (left, right, distance) = (out.left, out.right, out.distance);
    on_leaves!(
        c::oul_leaf_pairs,
        (k, radius, under),
        l,
        r,
        (
            left.as_mut_ptr(),
            left.len(),
            right.as_mut_ptr(),
            right.len(),
            distance.as_mut_ptr(),
            distance.len()
        )
    )
}

#[inline(always)]
pub fn leaf_counts(k: u32, radius: f64, under: bool, l: Leaf, r: Leaf) -> u64 {
    on_leaves!(c::oul_leaf_counts, (k, radius, under), l, r, ())
}

/// True when done, false when the arguments are no leaf pair.
#[inline(always)]
pub fn update_leaf(k: u32, l: Leaf, r: Leaf, items: &mut [u32], dists: &mut [f64]) -> bool {
    let lent = (
        items.as_mut_ptr(),
        items.len(),
        dists.as_mut_ptr(),
        dists.len(),
    );
    on_leaves!(
        c::oul_update_leaf,
        (k),
        l,
        r,
        (lent.0, lent.1, lent.2, lent.3)
    ) == 1
}

/// The distance of place `p` on the left and place `q` on the right.
pub fn distance(k: u32, l: Leaf, p: usize, r: Leaf, q: usize) -> f64 {
    unsafe {
        c::oul_distance(
            k,
            l.coords.as_ptr(),
            l.coords.len(),
            l.items.len(),
            p,
            r.coords.as_ptr(),
            r.coords.len(),
            r.items.len(),
            q,
        )
    }
}

pub fn lower(min: &[f64; 8], max: &[f64; 8], k: u32) -> f64 {
    unsafe { c::oul_lower(min.as_ptr(), max.as_ptr(), k) }
}

pub fn upper(min: &[f64; 8], max: &[f64; 8], k: u32) -> f64 {
    unsafe { c::oul_upper(min.as_ptr(), max.as_ptr(), k) }
}

pub fn accepts(distance: f64, radius: f64, under: bool) -> bool {
    unsafe { c::oul_accepts(distance, radius, under) }
}

pub fn beyond(bound: f64, radius: f64, under: bool) -> bool {
    unsafe { c::oul_beyond(bound, radius, under) }
}

/// The number of the first rule broken, 0 if none.
pub fn check(k: u32, starts: &[u32], stems: &[f64], items: &[u32], coords: &[f64]) -> u32 {
    unsafe {
        c::oul_check(
            k,
            starts.as_ptr(),
            starts.len(),
            stems.as_ptr(),
            stems.len(),
            items.as_ptr(),
            items.len(),
            coords.as_ptr(),
            coords.len(),
        )
    }
}
