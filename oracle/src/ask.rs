//! A job's bytes: what the job program reads from its standard input.

use crate::lots::Lot;

/// The mode of a nearest job; its radius is 0.
pub const NEAREST: u8 = 4;

/// What a job asks of two trees.
#[derive(Clone)]
pub struct Ask {
    pub mode: u8,
    pub radius: f64,
    pub left: Lot,
    pub right: Lot,
}

impl Ask {
    pub fn bytes(&self) -> Vec<u8> {
        bytes(self.mode, self.radius, [&self.left, &self.right])
    }
}

/// Little-endian. K is the left tree's; the lengths of the trees' buffers are
/// not looked at.
pub fn bytes(mode: u8, radius: f64, trees: [&Lot; 2]) -> Vec<u8> {
    let k = u8::try_from(trees[0].k).unwrap();
    let mut out = b"KDJ\x01\x00".to_vec();
    out.extend([k, mode, 0]);
    out.extend(radius.to_bits().to_le_bytes());
    for lot in trees {
        out.extend(numbers(&[lot.leaves() as u32, lot.items.len() as u32]));
        out.extend(numbers(&lot.starts));
        out.extend(floats(&lot.stems));
        out.extend(numbers(&lot.items));
        out.extend(floats(&lot.coords));
    }
    out
}

/// A job with other bytes from a place on.
pub fn changed(mut job: Vec<u8>, at: usize, bytes: &[u8]) -> Vec<u8> {
    job[at..at + bytes.len()].copy_from_slice(bytes);
    job
}

fn numbers(list: &[u32]) -> impl Iterator<Item = u8> + '_ {
    list.iter().flat_map(|x| x.to_le_bytes())
}

fn floats(list: &[f64]) -> impl Iterator<Item = u8> + '_ {
    list.iter().flat_map(|x| x.to_bits().to_le_bytes())
}
