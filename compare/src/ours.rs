//! The seam to this product's static libraries: one function a row of `compare speed`, nothing where the part is not linked. A part is
//! linked by its feature, `reader` (crate `exports`: the reader and the theory) or `terms` (crates `exports_terms` and `exports_store`).
//! What a function requires, its caller here keeps.

/// A row's own side, ready to be called again and again.
pub type Ours<'a> = Option<Box<dyn FnMut() + 'a>>;

#[cfg(feature = "reader")]
mod reader {
    use super::Ours;
    use std::hint::black_box;

    unsafe extern "C" {
        fn tariff_read(text: *const u8, length: usize, words: *mut u32, cells: usize) -> usize;
        fn tariff_parse(
            text: *const u8,
            length: usize,
            cells: *mut u32,
            room: usize,
            sorts: *mut u32,
            sort_cells: usize,
            symbols: *mut u32,
            symbol_cells: usize,
            inputs: *mut u32,
            input_cells: usize,
            rules: *mut u32,
            rule_cells: usize,
            vars: *mut u32,
            var_cells: usize,
            patterns: *mut u32,
            pattern_cells: usize,
        ) -> usize;
    }

    /// A text of at most 65,536 bytes, and as many cells, which are zero and are left so.
    pub fn read(text: &str) -> Ours<'_> {
        let mut words = vec![0u32; 65_536];
        assert!(text.len() <= words.len());
        Some(Box::new(move || {
            // SAFETY: both slices live through the call, and what it requires is asserted above
            black_box(unsafe { tariff_read(text.as_ptr(), text.len(), words.as_mut_ptr(), words.len()) });
        }))
    }

    /// The number of forms, for a comparison of the answers.
    pub fn forms(text: &str) -> Option<usize> {
        let mut words = vec![0u32; 65_536];
        assert!(text.len() <= words.len());
        // SAFETY: as above
        Some(unsafe { tariff_read(text.as_ptr(), text.len(), words.as_mut_ptr(), words.len()) })
    }

    /// A theory with so many rules, of at most 65,536 bytes. The tables have their named lengths; every cell of them is set by the call,
    /// so they are not cleared before the next.
    pub fn theory(text: &str, rules: usize) -> Ours<'_> {
        let mut cells = vec![0u32; 65_536];
        let mut tables = [2 * 64, 4 * 256, 16 * 256, 6 * 256, 3 * 16 * 256, 8192].map(|n| vec![0u32; n]);
        assert!(text.len() <= cells.len());
        Some(Box::new(move || {
            let [s, y, i, r, v, p] = &mut tables;
            // SAFETY: all slices live through the call; the cells are zero before and after, and the lengths are those it requires
            let found = unsafe {
                tariff_parse(
                    text.as_ptr(),
                    text.len(),
                    cells.as_mut_ptr(),
                    cells.len(),
                    s.as_mut_ptr(),
                    s.len(),
                    y.as_mut_ptr(),
                    y.len(),
                    i.as_mut_ptr(),
                    i.len(),
                    r.as_mut_ptr(),
                    r.len(),
                    v.as_mut_ptr(),
                    v.len(),
                    p.as_mut_ptr(),
                    p.len(),
                )
            };
            assert_eq!(black_box(found), rules, "the theory is taken");
        }))
    }
}

#[cfg(not(feature = "reader"))]
mod reader {
    pub fn read(_: &str) -> super::Ours<'_> {
        None
    }

    pub fn forms(_: &str) -> Option<usize> {
        None
    }

    pub fn theory(_: &str, _: usize) -> super::Ours<'_> {
        None
    }
}

pub use reader::{forms, read, theory};

#[cfg(feature = "terms")]
mod terms {
    use super::Ours;
    use std::hint::black_box;

    unsafe extern "C" {
        fn tariff_keep(
            node: *const u32,
            length: usize,
            index: *mut u32,
            cells: usize,
            words: *mut u32,
            room: usize,
            count: usize,
            used: usize,
        ) -> usize;
        fn tariff_chain(
            index: *mut u32,
            cells: usize,
            words: *mut u32,
            room: usize,
            count: usize,
            used: usize,
            first: usize,
            times: usize,
        ) -> usize;
        fn tariff_variables(
            index: *const u32,
            cells: usize,
            words: *const u32,
            room: usize,
            count: usize,
            used: usize,
            id: usize,
            seen: *mut u64,
            marks: usize,
            set: *mut u64,
            length: usize,
        );
        fn tariff_substitute(
            index: *mut u32,
            cells: usize,
            words: *mut u32,
            room: usize,
            count: usize,
            used: usize,
            map: *const u32,
            variables: usize,
            memo: *mut u32,
            length: usize,
            id: usize,
        ) -> usize;
        fn tariff_unify(
            index: *mut u32,
            cells: usize,
            words: *mut u32,
            room: usize,
            count: usize,
            used: usize,
            variables: usize,
            s: usize,
            t: usize,
            theta: *mut u32,
            thetas: usize,
            map: *mut u32,
            maps: usize,
            memo: *mut u32,
            memos: usize,
            pairs: *mut u32,
            waiting: usize,
            seen: *mut u64,
            marks: usize,
        ) -> usize;
    }

    /// The store's two tables, which are zero behind what is used.
    struct Store {
        index: Vec<u32>,
        words: Vec<u32>,
        count: usize,
        used: usize,
    }

    impl Store {
        fn new() -> Self {
            Store { index: vec![0; 16_384], words: vec![0; 16_384], count: 0, used: 0 }
        }

        /// Both tables as they were at the start.
        fn clear(&mut self) {
            self.index.fill(0);
            self.words.fill(0);
            (self.count, self.used) = (0, 0);
        }

        /// A head below 256 is a symbol, from 256 on a variable; arguments are numbers of terms that stand.
        fn keep(&mut self, node: &[u32]) -> usize {
            assert!(node.len() <= 17 && node[1..].iter().all(|&a| (a as usize) < self.count));
            let (index, words) = (self.index.as_mut_ptr(), self.words.as_mut_ptr());
            let (cells, room) = (self.index.len(), self.words.len());
            // SAFETY: the slices live through the call; only this function writes the tables, so that they stay what it requires
            let id = unsafe { tariff_keep(node.as_ptr(), node.len(), index, cells, words, room, self.count, self.used) };
            if id == self.count {
                self.count += 1;
                self.used += node.len();
            }
            id
        }

        fn variables(&self, id: usize, seen: &mut [u64], set: &mut [u64]) {
            assert!(id < self.count && seen.len() == 64 && set.len() == 8);
            let (index, words) = (self.index.as_ptr(), self.words.as_ptr());
            let (cells, room) = (self.index.len(), self.words.len());
            let (marks, length) = (seen.len(), set.len());
            // SAFETY: as above; the scratch is zero before and after, and variables are below 512
            unsafe {
                let (seen, set) = (seen.as_mut_ptr(), set.as_mut_ptr());
                tariff_variables(index, cells, words, room, self.count, self.used, id, seen, marks, set, length);
            }
        }
    }

    /// A chain of binary terms over variable 0, two nodes a level, in which variable 1 takes its place. The tables go back to what they
    /// were before each time.
    pub fn substitute(levels: usize) -> Ours<'static> {
        let mut store = Store::new();
        let (x, y, c) = (store.keep(&[256]), store.keep(&[257]), store.keep(&[1]));
        let id = (0..levels).fold(x, |last, _| store.keep(&[2, last as u32, c as u32]));
        let (index, words) = (store.index.clone(), store.words.clone());
        let map = [y as u32 + 1];
        let mut memo = vec![0u32; 4096];
        assert!(store.count + levels <= 4096 && store.used + 3 * levels <= 16_384, "the new terms fit");
        Some(Box::new(move || {
            store.index.copy_from_slice(&index);
            store.words.copy_from_slice(&words);
            let (cells, room) = (store.index.len(), store.words.len());
            let (i, w) = (store.index.as_mut_ptr(), store.words.as_mut_ptr());
            let (count, used) = (store.count, store.used);
            // SAFETY: as in `keep`; the map names terms that stand, and the memo is zero before and after
            let new = unsafe { tariff_substitute(i, cells, w, room, count, used, map.as_ptr(), 1, memo.as_mut_ptr(), memo.len(), id) };
            assert_eq!(black_box(new), count + levels - 1);
        }))
    }

    /// A leaf, then a chain over it up to so many terms, made in one call. The tables are cleared each time, as the original makes a new
    /// store each time.
    pub fn intern(terms: usize) -> Ours<'static> {
        let mut store = Store::new();
        Some(Box::new(move || {
            store.clear();
            let first = store.keep(&[0]);
            let (index, words) = (store.index.as_mut_ptr(), store.words.as_mut_ptr());
            let (cells, room) = (store.index.len(), store.words.len());
            // SAFETY: as in `keep`; the first term stands
            let last = unsafe { tariff_chain(index, cells, words, room, store.count, store.used, first, terms - 1) };
            assert_eq!(last, terms - 1);
        }))
    }

    /// The same chain, one call from here a term.
    pub fn intern_each(terms: usize) -> Ours<'static> {
        let mut store = Store::new();
        Some(Box::new(move || {
            store.clear();
            let first = store.keep(&[0]);
            let last = (1..terms).fold(first, |last, _| store.keep(&[9, last as u32, first as u32]));
            assert_eq!(last, terms - 1);
        }))
    }

    /// As often as a `step` of one premise asks for the variables of a judgment: for the premise, and for the conclusion.
    pub fn variables(levels: usize) -> Ours<'static> {
        let mut store = Store::new();
        let mut last = store.keep(&[256]);
        for _ in 0..levels {
            last = store.keep(&[1, last as u32, last as u32]);
        }
        let (mut seen, mut set) = (vec![0u64; 64], vec![0u64; 8]);
        Some(Box::new(move || {
            for _ in 0..2 {
                set.fill(0);
                store.variables(last, &mut seen, &mut set);
            }
            assert_eq!(black_box(&set)[0], 1);
        }))
    }

    /// `(e l r)` and `(e z z)`, where l is a chain over all variables but z and r the same over what they get: all are bound. With
    /// `linked` that is the variable before, so that each binding changes all values found until then; else it is a constant. The tables
    /// go back to what they were before each time.
    pub fn unify(levels: usize, linked: bool) -> Ours<'static> {
        let mut store = Store::new();
        let c = store.keep(&[1]) as u32;
        let x: Vec<u32> = (0..=levels as u32).map(|v| store.keep(&[256 + v]) as u32).collect();
        let (mut l, mut r) = (c, c);
        for k in (0..levels).rev() {
            let value = if linked && 0 < k { x[k - 1] } else { c };
            l = store.keep(&[2, x[k], l]) as u32;
            r = store.keep(&[2, value, r]) as u32;
        }
        let (s, t) = (store.keep(&[3, l, r]), store.keep(&[3, x[levels], x[levels]]));
        let (index, words) = (store.index.clone(), store.words.clone());
        let (mut theta, mut map, mut memo) = (vec![0u32; 512], vec![0u32; 512], vec![0u32; 4096]);
        let (mut pairs, mut seen) = (vec![0u32; 1024], vec![0u64; 64]);
        Some(Box::new(move || {
            store.index.copy_from_slice(&index);
            store.words.copy_from_slice(&words);
            theta.fill(0);
            let (cells, room) = (store.index.len(), store.words.len());
            let (thetas, maps, memos, waiting, marks) = (theta.len(), map.len(), memo.len(), pairs.len(), seen.len());
            // SAFETY: as in `keep`; the terms stand, their variables are below 512, and the other tables are zero
            let found = unsafe {
                let (i, w, o) = (store.index.as_mut_ptr(), store.words.as_mut_ptr(), theta.as_mut_ptr());
                let (m, e, p, n) = (map.as_mut_ptr(), memo.as_mut_ptr(), pairs.as_mut_ptr(), seen.as_mut_ptr());
                tariff_unify(i, cells, w, room, store.count, store.used, 512, s, t, o, thetas, m, maps, e, memos, p, waiting, n, marks)
            };
            assert!(black_box(found) == 1 && theta[..=levels].iter().all(|&v| v != 0), "all variables are bound");
        }))
    }
}

#[cfg(not(feature = "terms"))]
mod terms {
    pub fn unify(_: usize, _: bool) -> super::Ours<'static> {
        None
    }

    pub fn intern(_: usize) -> super::Ours<'static> {
        None
    }

    pub fn intern_each(_: usize) -> super::Ours<'static> {
        None
    }

    pub fn substitute(_: usize) -> super::Ours<'static> {
        None
    }

    pub fn variables(_: usize) -> super::Ours<'static> {
        None
    }
}

pub use terms::{intern, intern_each, substitute, unify, variables};
