//! The functions of the static library, as `bindings/reedgrit.h` declares them, and a safe function for each. This is the crate's only
//! module with `unsafe` in it. What makes each call sound: the library's functions have no precondition on values (their contracts have
//! no `requires`); they read and write the lent places only, for as long as the call lasts; and a Rust slice is a valid pointer and length.
#![allow(unsafe_code)]

use crate::{Atom, Range};
use std::sync::Once;

pub(crate) const TASKS: usize = 48;
pub(crate) const BARS: usize = 16;

/// The record of a propagator: the task count, the durations and their sum. Places from the count on are 0.
#[repr(C)]
#[derive(Clone, Copy, Debug, PartialEq, Eq, Hash)]
pub(crate) struct Record {
    pub count: usize,
    pub durations: [u32; TASKS],
    pub total: u32,
}

#[repr(C)]
#[derive(Clone, Copy, Debug)]
pub(crate) struct NewRecord {
    pub record: Record,
    pub number: u32,
}

#[repr(C)]
#[derive(Clone, Copy, Debug, PartialEq, Eq)]
pub(crate) struct RunAnswer {
    pub kind: u32,
    pub number: u32,
    pub posts: usize,
    pub first_word: usize,
    pub word_count: usize,
    pub changes: usize,
}

#[repr(C)]
#[derive(Clone, Copy, Debug, PartialEq, Eq)]
pub(crate) struct PostAnswer {
    pub number: u32,
    pub task: i32,
    pub bound: i32,
    pub first_word: usize,
    pub word_count: usize,
}

#[repr(C)]
#[derive(Clone, Copy, Debug, PartialEq, Eq)]
pub(crate) struct CheckAnswer {
    pub kind: u32,
    pub number: u32,
    pub variable: usize,
}

#[repr(C)]
#[derive(Clone, Copy, Debug, PartialEq, Eq)]
pub(crate) struct StateAnswer {
    pub kind: u32,
    pub number: u32,
    pub variable: usize,
    pub infinity: i32,
    pub value: i32,
}

#[repr(C)]
#[derive(Clone, Copy, Debug, PartialEq, Eq)]
pub(crate) struct MirroredAnswer {
    pub kind: u32,
    pub number: u32,
    pub posts: usize,
    pub first_word: usize,
    pub word_count: usize,
}

#[repr(C)]
#[derive(Clone, Copy, Debug, PartialEq, Eq)]
pub(crate) struct CountAnswer {
    pub kind: u32,
    pub number: u32,
    pub count: usize,
}

#[repr(C)]
#[derive(Clone, Copy, Debug, PartialEq, Eq)]
pub(crate) struct ChangeAnswer {
    pub kind: u32,
    pub number: u32,
}

#[repr(C)]
#[derive(Clone, Copy, Debug, PartialEq, Eq)]
pub(crate) struct StartAnswer {
    pub kind: u32,
    pub number: u32,
    pub start: i32,
}

#[repr(C)]
#[derive(Clone, Copy, Debug, PartialEq, Eq)]
pub(crate) struct BusiestAnswer {
    pub kind: u32,
    pub number: u32,
    pub time: u32,
    pub start: i32,
}

#[repr(C)]
#[derive(Clone, Copy, Debug, PartialEq, Eq)]
pub(crate) struct Work {
    pub tasks: [bool; TASKS],
    pub est: i32,
    pub p: u32,
}

#[repr(C)]
#[derive(Clone, Copy, Debug, PartialEq, Eq)]
pub(crate) struct ConflictAnswer {
    pub kind: u32,
    pub number: u32,
    pub task: usize,
    pub latest_start: i32,
    pub bound: i32,
    pub set: Work,
    pub lct: i32,
    pub excess: u32,
    pub before: Work,
}

#[repr(C)]
#[derive(Clone, Copy, Debug, PartialEq, Eq)]
pub(crate) struct ChargesAnswer {
    pub kind: u32,
    pub number: u32,
    pub total: u32,
    pub charges: [u32; TASKS],
}

#[rustfmt::skip]
unsafe extern "C" {
    fn reedgrit_abi_version() -> u32;
    fn reedgrit_check_mirrored(
        durations: *const i32, count: usize,
        premises: *const i32, premise_words: usize,
        consequent: *const i32, consequent_words: usize,
    ) -> CheckAnswer;
    fn reedgrit_run_mirrored(
        record: *const Record,
        ranges: *mut Range, range_count: usize,
        posts: *mut i32, post_words: usize,
        atoms: *mut i32, atom_words: usize,
    ) -> MirroredAnswer;
    fn reedgrit_overload_test(record: *const Record, ranges: *const Range, range_count: usize) -> CountAnswer;
    fn reedgrit_conflict(record: *const Record, ranges: *const Range, range_count: usize) -> ConflictAnswer;
    fn reedgrit_conflict_page(record: *const Record, ranges: *const Range, range_count: usize, out: *mut u8, out_bytes: usize) -> CountAnswer;
    fn reedgrit_add(record: *mut Record, duration: i32) -> ChangeAnswer;
    fn reedgrit_remove(record: *mut Record, task: usize) -> ChangeAnswer;
    fn reedgrit_precedences(record: *const Record, ranges: *mut Range, range_count: usize) -> CountAnswer;
    fn reedgrit_precedence_bound(record: *const Record, ranges: *const Range, range_count: usize, task: usize) -> StartAnswer;
    fn reedgrit_precedence_reason(
        record: *const Record,
        ranges: *const Range, range_count: usize,
        task: usize,
        reason: *mut i32, reason_words: usize,
    ) -> CountAnswer;
    fn reedgrit_page(record: *const Record, ranges: *const Range, range_count: usize, out: *mut u8, out_bytes: usize) -> CountAnswer;
    fn reedgrit_charges(
        record: *const Record,
        ranges: *const Range, range_count: usize,
        due: *const i32, due_count: usize,
    ) -> ChargesAnswer;
    fn reedgrit_free_start(record: *const Record, ranges: *const Range, range_count: usize, t: i32, d: i32) -> StartAnswer;
    fn reedgrit_busiest_stretch(record: *const Record, ranges: *const Range, range_count: usize, length: i32) -> BusiestAnswer;
    fn reedgrit_create(durations: *const i32, count: usize) -> NewRecord;
    fn reedgrit_run(
        record: *mut Record,
        ranges: *mut Range, range_count: usize,
        posts: *mut i32, post_words: usize,
        atoms: *mut i32, atom_words: usize,
    ) -> RunAnswer;
    fn reedgrit_post(
        posts: *const i32, post_words: usize,
        atoms: *const i32, atom_words: usize,
        post_count: usize, index: usize,
    ) -> PostAnswer;
    fn reedgrit_check(
        durations: *const i32, count: usize,
        premises: *const i32, premise_words: usize,
        consequent: *const i32, consequent_words: usize,
    ) -> CheckAnswer;
    fn reedgrit_prepare(
        premises: *const i32, premise_words: usize,
        consequent: *const i32, consequent_words: usize,
    ) -> StateAnswer;
    fn reedgrit_is_true(premises: *const i32, premise_words: usize, variable: i32, kind: i32, value: i32) -> StateAnswer;
    fn reedgrit_lower_bound(premises: *const i32, premise_words: usize, variable: i32) -> StateAnswer;
    fn reedgrit_upper_bound(premises: *const i32, premise_words: usize, variable: i32) -> StateAnswer;
}

pub(crate) fn create(durations: &[i32]) -> NewRecord {
    agree();
    // SAFETY: as the module says.
    unsafe { reedgrit_create(durations.as_ptr(), durations.len()) }
}

pub(crate) fn run(record: &mut Record, ranges: &mut [Range], posts: &mut [i32], atoms: &mut [i32]) -> RunAnswer {
    // SAFETY: as the module says; four `&mut` never overlap.
    unsafe { reedgrit_run(record, ranges.as_mut_ptr(), ranges.len(), posts.as_mut_ptr(), posts.len(), atoms.as_mut_ptr(), atoms.len()) }
}

pub(crate) fn post(posts: &[i32], atoms: &[i32], count: usize, index: usize) -> PostAnswer {
    // SAFETY: as the module says.
    unsafe { reedgrit_post(posts.as_ptr(), posts.len(), atoms.as_ptr(), atoms.len(), count, index) }
}

pub(crate) fn check(durations: &[i32], premises: &[i32], consequent: &[i32]) -> CheckAnswer {
    agree();
    // SAFETY: as the module says.
    unsafe { reedgrit_check(durations.as_ptr(), durations.len(), premises.as_ptr(), premises.len(), consequent.as_ptr(), consequent.len()) }
}

pub(crate) fn prepare(premises: &[i32], consequent: &[i32]) -> StateAnswer {
    agree();
    // SAFETY: as the module says.
    unsafe { reedgrit_prepare(premises.as_ptr(), premises.len(), consequent.as_ptr(), consequent.len()) }
}

pub(crate) fn is_true(premises: &[i32], variable: i32, kind: i32, value: i32) -> StateAnswer {
    agree();
    // SAFETY: as the module says.
    unsafe { reedgrit_is_true(premises.as_ptr(), premises.len(), variable, kind, value) }
}

pub(crate) fn lower_bound(premises: &[i32], variable: i32) -> StateAnswer {
    agree();
    // SAFETY: as the module says.
    unsafe { reedgrit_lower_bound(premises.as_ptr(), premises.len(), variable) }
}

pub(crate) fn upper_bound(premises: &[i32], variable: i32) -> StateAnswer {
    agree();
    // SAFETY: as the module says.
    unsafe { reedgrit_upper_bound(premises.as_ptr(), premises.len(), variable) }
}

/// The version of the functions and structs that this module declares.
pub(crate) const ABI: u32 = 3;

/// Compares the versions once, and panics where the archive is another's.
fn agree() {
    static AGREED: Once = Once::new();
    AGREED.call_once(|| {
        // SAFETY: it takes nothing.
        let version = unsafe { reedgrit_abi_version() };
        assert_eq!(version, ABI, "the static library has another version than this crate");
    });
}

pub(crate) fn check_mirrored(durations: &[i32], premises: &[i32], consequent: &[i32]) -> CheckAnswer {
    agree();
    // SAFETY: as the module says.
    unsafe {
        reedgrit_check_mirrored(
            durations.as_ptr(),
            durations.len(),
            premises.as_ptr(),
            premises.len(),
            consequent.as_ptr(),
            consequent.len(),
        )
    }
}

pub(crate) fn run_mirrored(record: &Record, ranges: &mut [Range], posts: &mut [i32], atoms: &mut [i32]) -> MirroredAnswer {
    // SAFETY: as the module says; three `&mut` never overlap.
    unsafe {
        reedgrit_run_mirrored(record, ranges.as_mut_ptr(), ranges.len(), posts.as_mut_ptr(), posts.len(), atoms.as_mut_ptr(), atoms.len())
    }
}

pub(crate) fn overload_test(record: &Record, ranges: &[Range]) -> CountAnswer {
    // SAFETY: as the module says.
    unsafe { reedgrit_overload_test(record, ranges.as_ptr(), ranges.len()) }
}

pub(crate) fn conflict(record: &Record, ranges: &[Range]) -> ConflictAnswer {
    // SAFETY: as the module says; a flag that the library writes is a `bool`.
    unsafe { reedgrit_conflict(record, ranges.as_ptr(), ranges.len()) }
}

pub(crate) fn conflict_page(record: &Record, ranges: &[Range], out: &mut [u8]) -> CountAnswer {
    // SAFETY: as the module says.
    unsafe { reedgrit_conflict_page(record, ranges.as_ptr(), ranges.len(), out.as_mut_ptr(), out.len()) }
}

pub(crate) fn add(record: &mut Record, duration: i32) -> ChangeAnswer {
    // SAFETY: as the module says.
    unsafe { reedgrit_add(record, duration) }
}

pub(crate) fn remove(record: &mut Record, task: usize) -> ChangeAnswer {
    // SAFETY: as the module says.
    unsafe { reedgrit_remove(record, task) }
}

pub(crate) fn precedences(record: &Record, ranges: &mut [Range]) -> CountAnswer {
    // SAFETY: as the module says.
    unsafe { reedgrit_precedences(record, ranges.as_mut_ptr(), ranges.len()) }
}

pub(crate) fn precedence_bound(record: &Record, ranges: &[Range], task: usize) -> StartAnswer {
    // SAFETY: as the module says.
    unsafe { reedgrit_precedence_bound(record, ranges.as_ptr(), ranges.len(), task) }
}

pub(crate) fn precedence_reason(record: &Record, ranges: &[Range], task: usize, reason: &mut [i32]) -> CountAnswer {
    // SAFETY: as the module says.
    unsafe { reedgrit_precedence_reason(record, ranges.as_ptr(), ranges.len(), task, reason.as_mut_ptr(), reason.len()) }
}

pub(crate) fn page(record: &Record, ranges: &[Range], out: &mut [u8]) -> CountAnswer {
    // SAFETY: as the module says.
    unsafe { reedgrit_page(record, ranges.as_ptr(), ranges.len(), out.as_mut_ptr(), out.len()) }
}

pub(crate) fn charges(record: &Record, ranges: &[Range], due: &[i32]) -> ChargesAnswer {
    // SAFETY: as the module says.
    unsafe { reedgrit_charges(record, ranges.as_ptr(), ranges.len(), due.as_ptr(), due.len()) }
}

pub(crate) fn free_start(record: &Record, ranges: &[Range], t: i32, d: i32) -> StartAnswer {
    // SAFETY: as the module says.
    unsafe { reedgrit_free_start(record, ranges.as_ptr(), ranges.len(), t, d) }
}

pub(crate) fn busiest_stretch(record: &Record, ranges: &[Range], length: i32) -> BusiestAnswer {
    // SAFETY: as the module says.
    unsafe { reedgrit_busiest_stretch(record, ranges.as_ptr(), ranges.len(), length) }
}

/// The words of atoms, three to an atom.
pub(crate) fn words(atoms: &[Atom]) -> &[i32] {
    // SAFETY: an `Atom` is `repr(C)`, three `i32` without padding.
    unsafe { std::slice::from_raw_parts(atoms.as_ptr().cast(), 3 * atoms.len()) }
}

/// The atoms of words; the last one or two are left out where their number is no multiple of three.
pub(crate) fn atoms(words: &[i32]) -> &[Atom] {
    // SAFETY: as above, and every `i32` is one that an atom may hold.
    unsafe { std::slice::from_raw_parts(words.as_ptr().cast(), words.len() / 3) }
}

/// The durations as a caller gives them. They are 400,000,000 at most.
pub(crate) fn signed(durations: &[u32]) -> &[i32] {
    // SAFETY: both types have the same size and alignment, and every bit pattern is a value of either.
    unsafe { std::slice::from_raw_parts(durations.as_ptr().cast(), durations.len()) }
}

#[cfg(test)]
mod tests {
    use super::*;
    use std::hash::{BuildHasher, BuildHasherDefault, DefaultHasher};

    // The layouts that the archive is compiled for.
    #[test]
    fn sizes() {
        assert_eq!(size_of::<Record>(), 208);
        assert_eq!(size_of::<NewRecord>(), 216);
        assert_eq!(size_of::<RunAnswer>(), 40);
        assert_eq!(size_of::<PostAnswer>(), 32);
        assert_eq!(size_of::<CheckAnswer>(), 16);
        assert_eq!(size_of::<StateAnswer>(), 24);
        assert_eq!(size_of::<MirroredAnswer>(), 32);
        assert_eq!(size_of::<CountAnswer>(), 16);
        assert_eq!(size_of::<ChangeAnswer>(), 8);
        assert_eq!(size_of::<StartAnswer>(), 12);
        assert_eq!(size_of::<BusiestAnswer>(), 16);
        assert_eq!(size_of::<ChargesAnswer>(), 204);
        assert_eq!((size_of::<Work>(), size_of::<ConflictAnswer>()), (56, 144));
        assert_eq!((size_of::<Range>(), align_of::<Range>()), (80, 8));
        assert_eq!(size_of::<Atom>(), 12);
        assert_eq!(align_of::<Atom>(), align_of::<i32>());
    }

    // The archive is the one that this module declares.
    #[test]
    fn version() {
        // SAFETY: it takes nothing.
        assert_eq!(unsafe { reedgrit_abi_version() }, ABI);
    }

    // A record that creation cannot make is refused by 20 by the other calls too, and nothing that is lent changes.
    #[test]
    fn broken_records_elsewhere() {
        let mut broken = create(&[4, 5, 3]).record;
        broken.total = 11;
        let before = broken;
        let mut ranges = [Range::new(0, 6), Range::new(1, 5), Range::new(0, 20)];
        let (mut posts, mut atoms, mut page_bytes) = ([7; 12], [8; 54], [9; 124]);
        let refused = CountAnswer { kind: 3, number: 20, count: 0 };
        assert_eq!(
            run_mirrored(&broken, &mut ranges, &mut posts, &mut atoms),
            MirroredAnswer { kind: 3, number: 20, posts: 0, first_word: 0, word_count: 0 }
        );
        assert_eq!(overload_test(&broken, &ranges), refused);
        let none = Work { tasks: [false; TASKS], est: 0, p: 0 };
        assert_eq!(
            conflict(&broken, &ranges),
            ConflictAnswer { kind: 3, number: 20, task: 0, latest_start: 0, bound: 0, set: none, lct: 0, excess: 0, before: none }
        );
        assert_eq!(conflict_page(&broken, &ranges, &mut page_bytes), refused);
        assert_eq!(precedences(&broken, &mut ranges), refused);
        assert_eq!(precedence_bound(&broken, &ranges, 0), StartAnswer { kind: 3, number: 20, start: 0 });
        assert_eq!(precedence_reason(&broken, &ranges, 0, &mut atoms), refused);
        assert_eq!(page(&broken, &ranges, &mut page_bytes), refused);
        assert_eq!((charges(&broken, &ranges, &[0; 3]).kind, charges(&broken, &ranges, &[0; 3]).number), (3, 20));
        assert_eq!(free_start(&broken, &ranges, 0, 1), StartAnswer { kind: 3, number: 20, start: 0 });
        assert_eq!(busiest_stretch(&broken, &ranges, 1), BusiestAnswer { kind: 3, number: 20, time: 0, start: 0 });
        assert_eq!(add(&mut broken, 1), ChangeAnswer { kind: 3, number: 20 });
        assert_eq!(remove(&mut broken, 0), ChangeAnswer { kind: 3, number: 20 });
        assert_eq!(broken, before);
        assert_eq!(ranges, [Range::new(0, 6), Range::new(1, 5), Range::new(0, 20)]);
        assert!(posts.iter().all(|word| *word == 7) && atoms.iter().all(|word| *word == 8) && page_bytes.iter().all(|byte| *byte == 9));
    }

    // A record that creation cannot make is refused by 20, and it, the ranges and the words stay as they were.
    #[test]
    fn broken_records() {
        let whole = create(&[4, 5, 3]).record;
        let mut broken = Vec::new();
        for change in [
            |r: &mut Record| r.count = 0,
            |r: &mut Record| r.count = 49,
            |r: &mut Record| r.count = usize::MAX,
            |r: &mut Record| r.durations[1] = 0,
            |r: &mut Record| r.durations[0] = 400_000_000,
            |r: &mut Record| r.durations[0] = u32::MAX,
            |r: &mut Record| r.durations[3] = 1,
            |r: &mut Record| r.durations[47] = 1,
            |r: &mut Record| r.count = 4,
            |r: &mut Record| (r.count, r.total) = (2, 9),
            |r: &mut Record| r.total = 11,
            |r: &mut Record| r.total = 0,
            |r: &mut Record| (r.durations[0], r.total) = (400_000_000, 400_000_008),
        ] {
            let mut record = whole;
            change(&mut record);
            broken.push(record);
        }
        for record in broken {
            let mut after = record;
            let mut ranges = [Range::new(0, 6), Range::new(1, 5), Range::new(0, 20)];
            let (mut posts, mut atoms) = ([7; 12], [8; 54]);
            let answer = run(&mut after, &mut ranges, &mut posts, &mut atoms);
            assert_eq!(answer, RunAnswer { kind: 3, number: 20, posts: 0, first_word: 0, word_count: 0, changes: 0 });
            assert_eq!(after, record);
            assert_eq!(ranges, [Range::new(0, 6), Range::new(1, 5), Range::new(0, 20)]);
            assert!(posts.iter().all(|word| *word == 7) && atoms.iter().all(|word| *word == 8));
        }
    }

    // An overload's reason is told in words, as a post's is: here it stands behind the five atoms of a post.
    #[test]
    fn overloads_in_words() {
        let durations = [2, 3, 4];
        let mut record = create(&durations).record;
        let (mut posts, mut atoms) = ([0; 12], [0; 54]);
        let answer = run(&mut record, &mut [Range::new(3, 4), Range::new(5, 8), Range::new(1, 1)], &mut posts, &mut atoms);
        assert_eq!((answer.kind, answer.posts, answer.first_word, answer.word_count), (1, 1, 15, 12));
        assert_eq!(check(&durations, &atoms[15..27], &[]).kind, 0);

        let durations = [4, 1, 3];
        let record = create(&durations).record;
        let answer = run_mirrored(&record, &mut [Range::new(2, 3), Range::new(-4, 0), Range::new(2, 2)], &mut posts, &mut atoms);
        assert_eq!(answer, MirroredAnswer { kind: 1, number: 0, posts: 1, first_word: 15, word_count: 12 });
        assert_eq!(check_mirrored(&durations, &atoms[15..27], &[]).kind, 0);
    }

    // Places past the count of bars: no call reads or writes them, and neither equality nor hash nor text has them.
    #[test]
    fn places_past_the_count() {
        let hashed = |range: &Range| BuildHasherDefault::<DefaultHasher>::default().hash_one(range);
        let other = [9, 10, -5, 0, 20, 11, 3, i32::MIN, 6, 6, 5, 4, i32::MAX, 12, 13, 14];
        let (mut posts, mut atoms) = ([0; 12], [0; 54]);
        let mut record = create(&[4, 5, 3]).record;
        for count in 0..3 {
            let third = Range { earliest: 0, latest: 20, count, barred: other };
            assert_eq!((third, hashed(&third)), (third.barred(&other[..count]), hashed(&third.barred(&other[..count]))));
            assert_eq!(format!("{third:?} {third}"), format!("{0:?} {0}", third.barred(&other[..count])));
            let mut ranges = [Range::new(0, 6), Range::new(1, 5), third];
            assert_eq!(run(&mut record, &mut ranges, &mut posts, &mut atoms).kind, 0);
            assert_eq!((ranges[2].earliest, ranges[2].count, ranges[2].barred), ([9, 10, 11][count], count, other));
            assert_eq!(run_mirrored(&record, &mut ranges, &mut posts, &mut atoms).kind, 0);
            assert_eq!(precedences(&record, &mut ranges).kind, 0);
            assert_eq!((overload_test(&record, &ranges).kind, ranges[2].count, ranges[2].barred), (1, count, other));
            // and where a latest start goes back
            let mut back = other;
            (back[0], back[1]) = (-2, -1);
            let mut late = [Range::new(0, 1), Range { earliest: -10, latest: 2, count, barred: back }];
            assert_eq!(run_mirrored(&create(&[4, 2]).record, &mut late, &mut posts, &mut atoms).kind, 0);
            assert_eq!((late[1].latest, late[1].count, late[1].barred), ([-1, -1, -3][count], count, back));
        }
    }

    // A count above 16 is refused, whatever stands in the places.
    #[test]
    fn counts_of_bars() {
        let barred = std::array::from_fn(|k| k as i32 + 1);
        let record = create(&[3]).record;
        for (count, number) in [(0, 0), (16, 0), (17, 13), (1 << 32, 13), (usize::MAX, 13)] {
            let range = Range { earliest: 0, latest: 20, count, barred };
            assert_eq!(overload_test(&record, &[range]).number, number);
            assert_eq!(range.bars().len(), count.min(BARS));
        }
    }

    // A refused creation gives the record of zeros.
    #[test]
    fn record_of_zeros() {
        let zeros = Record { count: 0, durations: [0; TASKS], total: 0 };
        for (durations, number) in [(&[][..], 1), (&[1; 49], 1), (&[1, 0], 2), (&[-1], 2), (&[400_000_000, 1], 5)] {
            let made = create(durations);
            assert_eq!((made.record, made.number), (zeros, number));
        }
    }

    // Words that no run wrote: the reader refuses what does not stand inside the slices, and says nothing else of it.
    #[test]
    fn posts_of_other_words() {
        let none = PostAnswer { number: 11, task: 0, bound: 0, first_word: 0, word_count: 0 };
        let atoms = [0; 9];
        assert_eq!(post(&[2, 9, 1, 2], &atoms, 1, 0), PostAnswer { number: 0, task: 2, bound: 9, first_word: 3, word_count: 6 });
        assert_eq!(post(&[2, 9, 1, 3], &atoms, 1, 0), none);
        assert_eq!(post(&[2, 9, -1, 1], &atoms, 1, 0), none);
        assert_eq!(post(&[2, 9, 1, -1], &atoms, 1, 0), none);
        assert_eq!(post(&[2, 9, i32::MAX, i32::MAX], &atoms, 1, 0), none);
        assert_eq!(post(&[2, 9, 1, 2], &atoms, 0, 0), none);
        assert_eq!(post(&[2, 9, 1, 2], &atoms, 2, 1), none);
        assert_eq!(post(&[2, 9, 1], &atoms, 1, 0), none);
        assert_eq!(post(&[], &[], usize::MAX, usize::MAX - 1), none);
    }
}
