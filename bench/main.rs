//! One driver for both columns: the same bits, entries, places and ranges, best of several runs each.
use columnar::bytes::indexed::encode;
use columnar::sums::rank_select::RankSelect;
use columnar::{Borrow, Clear, Container, Index, Len, Push, Results};
use std::hint::black_box;
use std::time::Instant;

extern "C" {
    fn rumbykai_push(c: *mut u64, cn: usize, w: *mut u64, wn: usize, p: *const u64, pn: usize, n: usize) -> usize;
    fn rumbykai_push_bits(c: *mut u64, cn: usize, w: *mut u64, wn: usize, p: *const u64, pn: usize) -> usize;
    fn rumbykai_rank(c: *mut u64, cn: usize, w: *mut u64, wn: usize, p: *const u64, pn: usize, q: *const u64, qn: usize) -> u64;
    fn rumbykai_select(c: *mut u64, cn: usize, w: *mut u64, wn: usize, p: *const u64, pn: usize, q: *const u64, qn: usize) -> u64;
    fn rumbykai_append(
        c: *mut u64, cn: usize, w: *mut u64, wn: usize, sc: *mut u64, scn: usize, sw: *mut u64, swn: usize,
        p: *const u64, pn: usize, r: *const u64, rn: usize, rounds: usize,
    ) -> usize;
    fn rumbykai_results_push(
        c: *mut u64, cn: usize, w: *mut u64, wn: usize, t: *mut u64, tn: usize, k: *mut u8, kn: usize, p: *const u64, pn: usize, n: usize, rounds: usize,
    ) -> usize;
    fn rumbykai_results_get(
        c: *mut u64, cn: usize, w: *mut u64, wn: usize, t: *mut u64, tn: usize, k: *mut u8, kn: usize, p: *const u64, pn: usize, n: usize, q: *const u64, qn: usize,
    ) -> u64;
    fn rumbykai_results_append(
        c: *mut u64, cn: usize, w: *mut u64, wn: usize, t: *mut u64, tn: usize, k: *mut u8, kn: usize, p: *const u64, pn: usize, n: usize, r: *const u64, rn: usize, rounds: usize,
    ) -> usize;
    fn rumbykai_results_write(
        c: *mut u64, cn: usize, w: *mut u64, wn: usize, t: *mut u64, tn: usize, k: *mut u8, kn: usize, p: *const u64, pn: usize, n: usize, o: *mut u64, on: usize, rounds: usize,
    ) -> usize;
    fn rumbykai_walk(c: *mut u64, cn: usize, w: *mut u64, wn: usize, p: *const u64, pn: usize, ones_only: bool) -> u64;
}

struct Buffers {
    counts: Vec<u64>,
    words: Vec<u64>,
}

impl Buffers {
    fn new(bits: usize) -> Self {
        Buffers { counts: vec![0; bits / 1024 + 1], words: vec![0; bits / 64 + 1] }
    }
}

fn ours_push(b: &mut Buffers, p: &[u64], n: usize) -> usize {
    unsafe { rumbykai_push(b.counts.as_mut_ptr(), b.counts.len(), b.words.as_mut_ptr(), b.words.len(), p.as_ptr(), p.len(), n) }
}

fn ours_push_bits(b: &mut Buffers, p: &[u64]) -> usize {
    unsafe { rumbykai_push_bits(b.counts.as_mut_ptr(), b.counts.len(), b.words.as_mut_ptr(), b.words.len(), p.as_ptr(), p.len()) }
}

fn ours_rank(b: &mut Buffers, p: &[u64], q: &[u64]) -> u64 {
    unsafe { rumbykai_rank(b.counts.as_mut_ptr(), b.counts.len(), b.words.as_mut_ptr(), b.words.len(), p.as_ptr(), p.len(), q.as_ptr(), q.len()) }
}

fn ours_select(b: &mut Buffers, p: &[u64], q: &[u64]) -> u64 {
    unsafe { rumbykai_select(b.counts.as_mut_ptr(), b.counts.len(), b.words.as_mut_ptr(), b.words.len(), p.as_ptr(), p.len(), q.as_ptr(), q.len()) }
}

fn ours_append(b: &mut Buffers, s: &mut Buffers, p: &[u64], r: &[u64], rounds: usize) -> usize {
    unsafe {
        rumbykai_append(
            b.counts.as_mut_ptr(), b.counts.len(), b.words.as_mut_ptr(), b.words.len(), s.counts.as_mut_ptr(), s.counts.len(),
            s.words.as_mut_ptr(), s.words.len(), p.as_ptr(), p.len(), r.as_ptr(), r.len(), rounds,
        )
    }
}

fn ours_walk(b: &mut Buffers, p: &[u64], ones_only: bool) -> u64 {
    unsafe { rumbykai_walk(b.counts.as_mut_ptr(), b.counts.len(), b.words.as_mut_ptr(), b.words.len(), p.as_ptr(), p.len(), ones_only) }
}

fn theirs_walk(rs: &mut RankSelect, p: &[u64], ones_only: bool) -> u64 {
    theirs_push_bits(rs, p);
    let mut cursor = rs.cursor();
    let mut sum = 0u64;
    for _ in 0..rs.len() {
        if ones_only {
            match cursor.next_one() {
                Some(p) => sum = sum.wrapping_add(p as u64),
                None => break,
            }
        } else if let Some(true) = cursor.step() {
            sum = sum.wrapping_add(1);
        }
    }
    sum
}

fn theirs(bits: usize) -> RankSelect {
    let mut rs: RankSelect = RankSelect::default();
    rs.counts.reserve(bits / 1024 + 1);
    rs.values.values.reserve(bits / 64 + 1);
    rs
}

fn theirs_push(rs: &mut RankSelect, p: &[u64], n: usize) -> usize {
    rs.clear();
    for i in 0..n {
        rs.push((p[(i / 64) % p.len()] >> (i % 64)) & 1 == 1);
    }
    rs.rank(rs.len())
}

// The crate has groups of bits on `Bools` alone; counts are caught up by an empty range.
fn theirs_push_bits(rs: &mut RankSelect, p: &[u64]) -> usize {
    rs.clear();
    let none: RankSelect = RankSelect::default();
    for w in p {
        rs.values.push_bits(*w, 64);
        rs.extend_from_self(&none, 0..0);
    }
    rs.rank(rs.len())
}

fn theirs_rank(rs: &mut RankSelect, p: &[u64], q: &[u64]) -> u64 {
    theirs_push_bits(rs, p);
    q.iter().fold(0u64, |s, i| s.wrapping_add(rs.rank(*i as usize) as u64))
}

fn theirs_select(rs: &mut RankSelect, p: &[u64], q: &[u64]) -> u64 {
    theirs_push_bits(rs, p);
    q.iter().fold(0u64, |s, r| rs.select(*r).map_or(s, |p| s.wrapping_add(p as u64)))
}

fn theirs_append(rs: &mut RankSelect, source: &mut RankSelect, p: &[u64], r: &[u64], rounds: usize) -> usize {
    theirs_push_bits(source, p);
    for _ in 0..rounds {
        rs.clear();
        for pair in r.chunks(2) {
            rs.extend_from_self(source, pair[0] as usize..pair[1] as usize);
        }
    }
    rs.rank(rs.len())
}

struct Visits {
    bits: Buffers,
    times: Vec<u64>,
    codes: Vec<u8>,
}

impl Visits {
    fn new(entries: usize) -> Self {
        Visits { bits: Buffers::new(entries), times: vec![0; entries], codes: vec![0; entries] }
    }
}

type Theirs = Results<Vec<u64>, Vec<u8>>;

fn entry(p: &[u64], i: usize) -> Result<u64, u8> {
    if (p[(i / 64) % p.len()] >> (i % 64)) & 1 == 1 { Ok(i as u64) } else { Err((i % 256) as u8) }
}

fn ours_results_push(v: &mut Visits, p: &[u64], n: usize, rounds: usize) -> usize {
    let b = &mut v.bits;
    unsafe {
        rumbykai_results_push(
            b.counts.as_mut_ptr(), b.counts.len(), b.words.as_mut_ptr(), b.words.len(), v.times.as_mut_ptr(), v.times.len(), v.codes.as_mut_ptr(), v.codes.len(),
            p.as_ptr(), p.len(), n, rounds,
        )
    }
}

fn ours_results_get(v: &mut Visits, p: &[u64], n: usize, q: &[u64]) -> u64 {
    let b = &mut v.bits;
    unsafe {
        rumbykai_results_get(
            b.counts.as_mut_ptr(), b.counts.len(), b.words.as_mut_ptr(), b.words.len(), v.times.as_mut_ptr(), v.times.len(), v.codes.as_mut_ptr(), v.codes.len(),
            p.as_ptr(), p.len(), n, q.as_ptr(), q.len(),
        )
    }
}

fn ours_results_append(v: &mut Visits, p: &[u64], n: usize, r: &[u64], rounds: usize) -> usize {
    let b = &mut v.bits;
    unsafe {
        rumbykai_results_append(
            b.counts.as_mut_ptr(), b.counts.len(), b.words.as_mut_ptr(), b.words.len(), v.times.as_mut_ptr(), v.times.len(), v.codes.as_mut_ptr(), v.codes.len(),
            p.as_ptr(), p.len(), n, r.as_ptr(), r.len(), rounds,
        )
    }
}

fn ours_results_write(v: &mut Visits, p: &[u64], n: usize, out: &mut [u64], rounds: usize) -> usize {
    let b = &mut v.bits;
    unsafe {
        rumbykai_results_write(
            b.counts.as_mut_ptr(), b.counts.len(), b.words.as_mut_ptr(), b.words.len(), v.times.as_mut_ptr(), v.times.len(), v.codes.as_mut_ptr(), v.codes.len(),
            p.as_ptr(), p.len(), n, out.as_mut_ptr(), out.len(), rounds,
        )
    }
}

fn theirs_fill(c: &mut Theirs, p: &[u64], n: usize) {
    c.clear();
    for i in 0..n {
        c.push(entry(p, i));
    }
}

fn theirs_results_push(c: &mut Theirs, p: &[u64], n: usize, rounds: usize) -> usize {
    for _ in 0..rounds {
        theirs_fill(c, p, n);
    }
    c.indexes.rank(c.len())
}

fn theirs_results_get(c: &mut Theirs, p: &[u64], n: usize, q: &[u64]) -> u64 {
    theirs_fill(c, p, n);
    let b = c.borrow();
    q.iter().fold(0u64, |s, i| match b.get(*i as usize) {
        Ok(v) => s.wrapping_add(*v),
        Err(w) => s.wrapping_add(*w as u64),
    })
}

fn theirs_results_append(c: &mut Theirs, source: &mut Theirs, p: &[u64], n: usize, r: &[u64], rounds: usize) -> usize {
    theirs_fill(source, p, n);
    for _ in 0..rounds {
        c.clear();
        for pair in r.chunks(2) {
            c.extend_from_self(source.borrow(), pair[0] as usize..pair[1] as usize);
        }
    }
    c.indexes.rank(c.len())
}

// The crate's store grows: it is kept and cleared, so that it has room.
fn theirs_results_write(c: &mut Theirs, p: &[u64], n: usize, store: &mut Vec<u64>, rounds: usize) -> usize {
    theirs_fill(c, p, n);
    for _ in 0..rounds {
        store.clear();
        encode(store, &c.borrow());
    }
    store.len()
}

// The crate panics, or answers without ground, at the length and above.
fn places_below(places: &[u64], n: usize) -> Vec<u64> {
    places.iter().map(|p| p % n as u64).collect()
}

/// The best time of several runs, in nanoseconds, and what came out.
fn best<T>(mut f: impl FnMut() -> T) -> (f64, T) {
    let mut least = f64::MAX;
    let mut out = None;
    for _ in 0..9 {
        let t = Instant::now();
        let r = black_box(f());
        least = least.min(t.elapsed().as_nanos() as f64);
        out = Some(r);
    }
    (least, out.unwrap())
}

fn row<T: PartialEq + std::fmt::Debug>(name: &str, per: f64, base: (f64, f64), ours: (f64, T), theirs: (f64, T)) {
    assert_eq!(ours.1, theirs.1, "{name}");
    let (a, b) = ((ours.0 - base.0) / per, (theirs.0 - base.1) / per);
    println!("{name:24} ours {a:8.3} ns   crate {b:8.3} ns   ratio {:.2}", a / b);
}

fn main() {
    let words = 6_000_000 / 64;
    let n = words * 64;
    let mut state = 88172645463325252u64;
    let mut next = move || {
        state ^= state << 13;
        state ^= state >> 7;
        state ^= state << 17;
        state
    };
    // about 70 % ones: or two words, then clear a few
    let pattern: Vec<u64> = (0..words).map(|_| (next() | next()) & (next() | next() | next() | next())).collect();
    let ones: u64 = pattern.iter().map(|w| w.count_ones() as u64).sum();
    let places: Vec<u64> = (0..2_000_000).map(|_| next() % (n as u64 + 1)).collect();
    let ranks: Vec<u64> = (0..2_000_000).map(|_| next() % (ones + ones / 50)).collect();
    let whole = vec![0, n as u64];
    let mut many = Vec::new();
    let mut used = 0;
    loop {
        let start = next() % n as u64;
        let end = (start + 1 + next() % 2000).min(n as u64);
        used += end - start;
        if used > n as u64 {
            break;
        }
        many.push(start);
        many.push(end);
    }
    let length: u64 = many.chunks(2).map(|p| p[1] - p[0]).sum();
    println!("{n} bits, {ones} ones, {} ranges", many.len() / 2);
    let mut b = Buffers::new(n);
    let mut s = Buffers::new(n);
    let mut rs = theirs(n);
    let mut src = theirs(n);
    row("push a bit", n as f64, (0.0, 0.0), best(|| ours_push(&mut b, &pattern, n)), best(|| theirs_push(&mut rs, &pattern, n)));
    let ours = best(|| ours_push_bits(&mut b, &pattern));
    let them = best(|| theirs_push_bits(&mut rs, &pattern));
    let base = (ours.0, them.0);
    row("push_bits, a word", words as f64, (0.0, 0.0), ours, them);
    row("rank, random", places.len() as f64, base, best(|| ours_rank(&mut b, &pattern, &places)), best(|| theirs_rank(&mut rs, &pattern, &places)));
    row("select, random", ranks.len() as f64, base, best(|| ours_select(&mut b, &pattern, &ranks)), best(|| theirs_select(&mut rs, &pattern, &ranks)));
    row("append whole, a word", 20.0 * words as f64, base, best(|| ours_append(&mut b, &mut s, &pattern, &whole, 20)), best(|| theirs_append(&mut rs, &mut src, &pattern, &whole, 20)));
    row("append ranges, a word", 20.0 * length as f64 / 64.0, base, best(|| ours_append(&mut b, &mut s, &pattern, &many, 20)), best(|| theirs_append(&mut rs, &mut src, &pattern, &many, 20)));
    row("next_one, all ones", ones as f64, base, best(|| ours_walk(&mut b, &pattern, true)), best(|| theirs_walk(&mut rs, &pattern, true)));
    row("step, all bits", n as f64, base, best(|| ours_walk(&mut b, &pattern, false)), best(|| theirs_walk(&mut rs, &pattern, false)));
    let mut one = Visits::new(n);
    let mut two = Visits { bits: Buffers { counts: vec![0; 2 * (n / 1024 + 1)], words: vec![0; 2 * (n / 64 + 1)] }, times: vec![0; 2 * n], codes: vec![0; 2 * n] };
    let mut c = Theirs::default();
    let mut d = Theirs::default();
    let in_order: Vec<u64> = (0..n as u64).collect();
    let ours = best(|| ours_results_push(&mut one, &pattern, n, 1));
    let them = best(|| theirs_results_push(&mut c, &pattern, n, 1));
    let base = (ours.0, them.0);
    row("Results push", n as f64, (0.0, 0.0), ours, them);
    row("Results get, random", places.len() as f64, base, best(|| ours_results_get(&mut one, &pattern, n, &places_below(&places, n))), best(|| theirs_results_get(&mut c, &pattern, n, &places_below(&places, n))));
    row("Results get, in order", n as f64, base, best(|| ours_results_get(&mut one, &pattern, n, &in_order)), best(|| theirs_results_get(&mut c, &pattern, n, &in_order)));
    row("Results append whole", 5.0 * n as f64, base, best(|| ours_results_append(&mut two, &pattern, n, &whole, 5)), best(|| theirs_results_append(&mut c, &mut d, &pattern, n, &whole, 5)));
    row("Results append ranges", 5.0 * length as f64, base, best(|| ours_results_append(&mut two, &pattern, n, &many, 5)), best(|| theirs_results_append(&mut c, &mut d, &pattern, n, &many, 5)));
    // The words of both are the same, slice by slice. What filling and one writing take is taken off.
    let mut out = vec![0; 2 * n];
    let mut store = Vec::with_capacity(2 * n);
    let ours = best(|| ours_results_write(&mut one, &pattern, n, &mut out, 1));
    let them = best(|| theirs_results_write(&mut c, &pattern, n, &mut store, 1));
    assert!(out[..ours.1] == store[..], "Results write");
    let base = (ours.0, them.0);
    let per = 10.0 * store.len() as f64;
    row("Results write, a word", per, base, best(|| ours_results_write(&mut one, &pattern, n, &mut out, 11)), best(|| theirs_results_write(&mut c, &pattern, n, &mut store, 11)));
    assert!(out[..store.len()] == store[..], "Results write");
}
