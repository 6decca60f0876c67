//! Shows, on the crate, what docs/DIFFERENCES.md says of it.
use columnar::bytes::indexed::{encode, validate_structure, DecodedStore};
use columnar::sums::rank_select::RankSelect;
use columnar::primitive::Empties;
use columnar::{Borrow, Container, Index, Len, Options, Push, Results};
use std::panic::catch_unwind;

fn column(bits: &[bool]) -> RankSelect {
    let mut rs: RankSelect = RankSelect::default();
    for b in bits {
        rs.push(*b);
    }
    rs
}

fn main() {
    std::panic::set_hook(Box::new(|_| {}));
    let none = column(&[]);
    assert_eq!(none.rank(1), 0);
    assert!(!none.get(0));
    assert!(catch_unwind(|| column(&[]).rank(64)).is_err());
    assert!(catch_unwind(|| column(&[]).get(64)).is_err());

    // select cuts the rank to 32 bits
    assert_eq!(column(&[true]).select(1 << 32), Some(0));
    let mut bits = vec![false; 65];
    bits[0] = true;
    bits[64] = true;
    assert_eq!(column(&bits).select((1 << 32) + 1), Some(64));

    // step after next_one that came to a multiple of 64 reads the word before
    let mut bits = vec![false; 65];
    bits[63] = true;
    bits[64] = true;
    let rs = column(&bits);
    let mut cursor = rs.cursor();
    assert_eq!(cursor.next_one(), Some(63));
    assert_eq!(cursor.step(), Some(false));
    assert_eq!(cursor.rank(), 1);

    // push_bits stands on Bools alone, and leaves the counts behind
    assert!(catch_unwind(|| {
        let mut rs = column(&[]);
        for _ in 0..16 {
            rs.values.push_bits(u64::MAX, 64);
        }
        rs.rank(1024)
    })
    .is_err());
    // in a release build it takes groups that are not lawful
    if !cfg!(debug_assertions) {
        let mut rs = column(&[]);
        rs.values.push_bits(2, 1);
        assert_eq!((rs.len(), rs.values.tail), (1, [2, 1]));
        let mut rs = column(&[]);
        rs.values.push_bits(1, 0);
        assert_eq!((rs.len(), rs.values.tail), (0, [1, 0]));
        let mut rs = column(&[]);
        rs.values.push_bits(0, 65);
        assert_eq!(rs.len(), 65);
        // and seeks backward
        let rs = column(&[true; 10]);
        let mut cursor = rs.cursor();
        assert!(cursor.seek_to_pos(5));
        assert!(cursor.seek_to_pos(2));
        assert_eq!(cursor.pos(), 2);
    }

    // a slice past the last, and a store that is too long
    if !cfg!(debug_assertions) {
        let words = [8u64];
        assert_eq!(DecodedStore::new(&words).get(0), (&[][..], 0));
        assert_eq!(DecodedStore::new(&words).get(usize::MAX), (&words[..], 0));
    }
    let mut long = vec![0u64; 268_435_457];
    long[0] = 8;
    assert!(validate_structure(&long, 0).is_ok());

    // a range's end past the source panics
    assert!(catch_unwind(|| column(&[]).extend_from_self(&column(&[true]), 0..2)).is_err());

    // so does an empty range of bare words that starts behind the source, and one that runs backward
    assert!(catch_unwind(|| Vec::<u64>::new().extend_from_self((&vec![7u64]).borrow(), 2..2)).is_err());
    assert!(catch_unwind(|| Vec::<u64>::new().extend_from_self((&vec![7u64]).borrow(), 1..0)).is_err());
    // units never look at their source
    let mut units = Empties::default();
    units.extend_from_self(Empties::default().borrow(), 0..1);
    assert_eq!(units.len(), 1);
    // an entry past the end is made up from the bits behind it, or panics
    assert!(catch_unwind(|| {
        let mut visits: Results<Vec<u64>, Vec<u8>> = Results::default();
        visits.push(Err::<u64, u8>(3));
        let _ = visits.borrow().get(1).is_ok();
    })
    .is_err());
    // a writing is added behind what is there, and its ends are counted from its own first word
    let mut times: Options<Vec<u64>> = Options::default();
    for time in [Some(7u64), None, Some(9)] {
        times.push(time);
    }
    let mut store = vec![1u64];
    encode(&mut store, &times.borrow());
    assert_eq!(store, [1, 40, 40, 40, 56, 72, 5, 3, 7, 9]);
    println!("the crate differs as docs/DIFFERENCES.md says");
}
