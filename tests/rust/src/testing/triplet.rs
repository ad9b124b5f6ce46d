//! One buffer three times: lent to each implementation and compared whole.

use std::fmt::Debug;

/// Elements kept on both ends of what is lent; no implementation may reach them.
const GUARD: usize = 16;

/// The implementations, in the order of their buffers.
pub const SIDES: [&str; 3] = ["plain", "tuned", "proved"];

/// What a buffer may hold.
pub trait Element: Copy + Eq + Debug {
    const GUARD: Self;
}

impl Element for u64 {
    const GUARD: u64 = 0x6775_6172_6467_7561;
}

impl Element for u8 {
    const GUARD: u8 = 0x67;
}

/// The same contents for every side, and as they were before the last call.
pub struct Triplet<T> {
    sides: [Vec<T>; 3],
    before: Vec<T>,
}

impl<T: Element> Triplet<T> {
    pub fn new(contents: &[T]) -> Triplet<T> {
        let guard = [T::GUARD; GUARD];
        let before = [&guard, contents, &guard].concat();
        Triplet { sides: std::array::from_fn(|_| before.clone()), before }
    }

    /// So many elements that no call writes by chance.
    pub fn filled(length: usize, element: T) -> Triplet<T> {
        Triplet::new(&vec![element; length])
    }

    /// What every side holds.
    pub fn get(&self) -> &[T] {
        let [plain, ..] = &self.sides;
        &plain[GUARD..plain.len() - GUARD]
    }

    /// What is lent to one side.
    pub fn lent(&mut self, side: usize) -> &mut [T] {
        let end = self.before.len() - GUARD;
        &mut self.sides[side][GUARD..end]
    }

    /// Changes all sides alike.
    pub fn edit(&mut self, change: impl Fn(&mut [T])) {
        for side in 0..SIDES.len() {
            change(self.lent(side));
        }
        self.before.copy_from_slice(&self.sides[0]);
    }

    /// Takes elements away at the end, on all sides alike.
    pub fn shorten(&mut self, length: usize) {
        assert!(length <= self.get().len(), "{length} elements are more than there are");
        for copy in self.sides.iter_mut().chain([&mut self.before]) {
            copy.truncate(GUARD + length);
            copy.extend([T::GUARD; GUARD]);
        }
    }

    /// Compares all elements after a call, guards too; a rejected call left them as they were.
    pub fn settle(&mut self, rejected: bool, call: &dyn Debug) {
        let [plain, others @ ..] = &self.sides;
        for (other, name) in others.iter().zip(&SIDES[1..]) {
            assert!(plain == other, "unlike after {call:?}: {}", difference(plain, other, name));
        }
        if rejected {
            assert!(*plain == self.before, "changed by the rejected {call:?}");
        } else {
            self.before.copy_from_slice(plain);
        }
    }
}

fn difference<T: Element>(plain: &[T], other: &[T], name: &str) -> String {
    let mut pairs = plain.iter().zip(other).enumerate();
    match pairs.find(|(_, (plain, other))| plain != other) {
        Some((place, (plain, other))) => {
            let place = place as isize - GUARD as isize;
            format!("element {place}: plain {plain:?}, {name} {other:?}")
        }
        None => String::from("nowhere"),
    }
}
