//! 01's job of 188 bytes, and each refusal that a job can reach: 2, 3 and 8 it
//! cannot (`answer` says why).

use super::*;
use crate::ask::{changed, Ask};
use crate::examples::{all, example, lot};

fn a1() -> Vec<u8> {
    example("a1").bytes()
}

/// A1's job with other bytes from a place on.
fn with(at: usize, bytes: &[u8]) -> Vec<u8> {
    changed(a1(), at, bytes)
}

fn refused(number: u32, side: u32, job: &[u8]) {
    assert_eq!(text(job), format!("refused {number} {side}\n"));
}

#[test]
fn a1_as_a_job() {
    assert_eq!(a1().len(), 188);
    let due = "pairs 3\n\
        11 21 4024000000000000\n\
        12 20 4024000000000000\n\
        13 21 0000000000000000\n\
        visits 3 measured 8 ruledout 0 whole 0\n";
    assert_eq!(text(&a1()), due);
}

/// What 01 says of the others: the first line, and where it does the last.
#[test]
fn other_examples() {
    let said = [
        ("a2", "pairs 1\n13 21 0000000000000000\n", ""),
        (
            "a3",
            "pairs 0\n",
            "visits 1 measured 0 ruledout 8 whole 0\n",
        ),
        (
            "a4",
            "pairs 0\n",
            "visits 3 measured 8 ruledout 0 whole 0\n",
        ),
        (
            "a5",
            "pairs 0\n",
            "visits 1 measured 0 ruledout 8 whole 0\n",
        ),
        (
            "a6",
            "count 8\n",
            "visits 1 measured 0 ruledout 0 whole 8\n",
        ),
        (
            "a7",
            "count 8\n",
            "visits 3 measured 8 ruledout 0 whole 0\n",
        ),
        ("a8", "nearest 4\n10 20 4030000000000000\n", ""),
        (
            "b1",
            "pairs 2\n",
            "visits 7 measured 3 ruledout 1 whole 0\n",
        ),
        ("b2", "pairs 2\n", "measured 4 ruledout 0 whole 0\n"),
        ("b3", "pairs 2\n", "measured 3 ruledout 1 whole 0\n"),
        ("c1-nearest", "nearest 1\n1 6 3ff0000000000000\n", ""),
        ("c1-pairs", "pairs 2\n1 5 3ff0000000000000\n", ""),
        ("c2-nearest", "nearest 1\n1 0 7ff0000000000000\n", ""),
        ("c2-up-to", "pairs 1\n1 7 7ff0000000000000\n", ""),
        ("c2-under", "pairs 0\n", ""),
        ("c3", "pairs 0\n", ""),
    ];
    assert_eq!(said.len() + 1, all().len());
    for (name, begins, ends) in said {
        let text = text(&example(name).bytes());
        assert!(text.starts_with(begins) && text.ends_with(ends), "{name}");
    }
}

#[test]
fn header_refused() {
    refused(21, 0, &[]);
    refused(21, 0, &a1()[..15]);
    refused(21, 0, &[a1(), vec![0; LIMIT]].concat());
    for place in 0..3 {
        refused(22, 0, &with(place, b"k"));
    }
    for version in [0u16, 2, 257] {
        refused(23, 0, &with(3, &version.to_le_bytes()));
    }
    refused(24, 0, &with(6, &[5]));
    refused(24, 0, &with(7, &[1]));
    for radius in [-0.0, 1.0, f64::NAN] {
        let asked = Ask {
            radius,
            ..example("a8")
        };
        refused(24, 0, &asked.bytes());
    }
    for k in [0, 5, 255] {
        refused(1, 0, &with(5, &[k]));
    }
}

#[test]
fn length_refused() {
    refused(25, 0, &a1()[..16]);
    refused(25, 0, &a1()[..187]);
    refused(25, 0, &[a1(), vec![0]].concat());
    for place in [16, 20, 132, 136] {
        refused(25, 0, &with(place, &u32::MAX.to_le_bytes()));
    }
    // 2^30 more: in 32 bits the length would come out right.
    for place in [20, 132, 136] {
        refused(25, 0, &with(place + 3, &[0x40]));
    }
}

/// Places of the left tree: counts 16, starts 24, stems 36, items 52, coordinates
/// 68; of the right: counts 132, starts 140, items 148, coordinates 156.
#[test]
fn tree_refused() {
    let nan = 0xfff0_0000_0000_0001_u64.to_le_bytes();
    refused(4, 0, &with(24, &[1]));
    refused(4, 1, &with(144, &[1]));
    refused(5, 0, &with(68, &nan));
    refused(5, 1, &with(180, &nan));
    refused(6, 0, &with(44, &nan));
    refused(7, 0, &with(44, &3.0f64.to_le_bytes()));
    assert_eq!(text(&with(36, &nan)), text(&a1()));

    let other_way = |pivot: f64| {
        let mut asked = example("a1");
        std::mem::swap(&mut asked.left, &mut asked.right);
        asked.right.stems[1] = pivot;
        asked.bytes()
    };
    refused(6, 1, &other_way(f64::NEG_INFINITY));
    refused(7, 1, &other_way(f64::INFINITY));
}

/// One leaf, or two, of so many points at 0.
fn heap(points: u32) -> Lot {
    let (items, coords) = (vec![7; points as usize], vec![0.0; points as usize]);
    match points <= 1024 {
        true => lot(1, &[0, points], &[], &items, &coords),
        false => lot(1, &[0, 1024, points], &[0.0; 2], &items, &coords),
    }
}

fn asked(mode: u8, left: u32, right: u32) -> Vec<u8> {
    Ask {
        mode,
        radius: 0.0,
        left: heap(left),
        right: heap(right),
    }
    .bytes()
}

#[test]
fn room_refused() {
    refused(9, 0, &asked(0, 25, 41));
    refused(9, 0, &asked(4, 1025, 1));
    for (job, first) in [
        (asked(0, 32, 32), "pairs 1024\n"),
        (asked(4, 1024, 1), "nearest 1024\n"),
        (asked(4, 1025, 0), "nearest 0\nvisits 0 "),
        (asked(2, 25, 41), "count 1025\n"),
    ] {
        assert!(text(&job).starts_with(first), "{first}");
    }
}
