//! One atomic step of one operation.

use crate::word::{became_saturated, is_live, Homes, Word};

#[derive(Clone, Copy, Debug, PartialEq, Eq)]
pub(crate) enum Kind {
    Find,
    Insert,
    Update,
    Add,
    Remove,
}

/// One operation on the table ("row").
#[derive(Clone, Copy, Debug)]
pub(crate) struct Operation<W: Word> {
    pub(crate) kind: Kind,
    pub(crate) key: u16,
    pub(crate) amount: W::Total,
}

impl<W: Word> Operation<W> {
    /// The fields of an operation's word, or nothing where they are not allowed.
    pub(crate) fn decode(word: u64) -> Option<Operation<W>> {
        // Bits above the kind's eight make this number larger than any kind.
        let kind = match kind_number::<W>(word) {
            1 => Kind::Find,
            2 => Kind::Insert,
            3 => Kind::Update,
            4 => Kind::Add,
            5 => Kind::Remove,
            _ => return None,
        };
        let (key, amount) = (key_of::<W>(word), W::amount(word));
        let amount_allowed = match kind {
            Kind::Find | Kind::Remove => amount == W::ZERO,
            Kind::Insert | Kind::Update | Kind::Add => W::is_total(amount),
        };
        (is_live(key) && amount_allowed).then_some(Operation { kind, key, amount })
    }
}

/// All that stands above the key in an operation's word.
#[inline]
pub(crate) fn kind_number<W: Word>(operation: u64) -> u64 {
    operation >> (W::TOTAL_BITS + 16)
}

/// The key of an operation's word, which stands right above the amount.
#[inline]
pub(crate) fn key_of<W: Word>(operation: u64) -> u16 {
    (operation >> W::TOTAL_BITS) as u16
}

/// The answers: a code, and a total where the code carries one.
pub(crate) mod answer {
    use crate::word::Word;

    pub(crate) fn unfinished<W: Word>() -> W {
        W::answer(0, W::ZERO)
    }

    pub(crate) fn found<W: Word>(total: W::Total) -> W {
        W::answer(1, total)
    }

    pub(crate) fn inserted<W: Word>() -> W {
        W::answer(2, W::ZERO)
    }

    pub(crate) fn present<W: Word>(total: W::Total) -> W {
        W::answer(3, total)
    }

    pub(crate) fn changed<W: Word>(total: W::Total) -> W {
        W::answer(4, total)
    }

    pub(crate) fn removed<W: Word>(total: W::Total) -> W {
        W::answer(5, total)
    }

    pub(crate) fn absent<W: Word>() -> W {
        W::answer(6, W::ZERO)
    }

    pub(crate) fn full<W: Word>() -> W {
        W::answer(7, W::ZERO)
    }

    /// Of the add "that turns a true total into a pinned one"; the total is the
    /// old one.
    pub(crate) fn capped<W: Word>(total: W::Total) -> W {
        W::answer(8, total)
    }

    /// Of the update "that reads a pinned total of its room"; the total is that
    /// one, which stays. The document's word is held: here an operation holds
    /// the word that its swap expects, and this one holds none.
    pub(crate) fn retained<W: Word>(total: W::Total) -> W {
        W::answer(9, total)
    }
}

/// What a step did for its operation ("turns in one of four ways").
pub(crate) enum Turn<W> {
    Passed,
    Held,
    Lost,
    Finished(W),
}

#[derive(Clone, Copy)]
enum Stage<W> {
    Reading,
    /// The word the swap expects to find ("holds a word it has seen").
    Swapping(W),
}

/// How far one operation has come ("a row's record").
#[derive(Clone, Copy)]
pub(crate) struct Progress<W: Word> {
    operation: Operation<W>,
    stage: Stage<W>,
    cell: usize,
    passed: usize,
}

impl<W: Word> Progress<W> {
    pub(crate) fn start(operation: Operation<W>, homes: Homes) -> Progress<W> {
        Progress {
            operation,
            stage: Stage::Reading,
            cell: homes.home(operation.key),
            passed: 0,
        }
    }

    /// Takes the next step of an operation that has not finished.
    pub(crate) fn step(&mut self, cells: &mut [W]) -> Turn<W> {
        match self.stage {
            Stage::Reading => self.read(cells),
            Stage::Swapping(held) => self.swap(held, cells),
        }
    }

    fn read(&mut self, cells: &[W]) -> Turn<W> {
        let word = cells[self.cell];
        if word == W::EMPTY {
            return match self.operation.kind {
                Kind::Find | Kind::Update | Kind::Remove => Turn::Finished(answer::absent()),
                Kind::Insert | Kind::Add => self.hold(word),
            };
        }
        // A tombstone's key is not live, so it is never the operation's own.
        if word.key() != self.operation.key {
            return self.pass(cells.len());
        }
        match self.operation.kind {
            Kind::Find => Turn::Finished(answer::found(word.total())),
            Kind::Insert => Turn::Finished(answer::present(word.total())),
            // "Finishes at that read", so that there is no swap to lose.
            Kind::Update if W::is_saturated(word.total()) => {
                Turn::Finished(answer::retained(word.total()))
            }
            Kind::Update | Kind::Add | Kind::Remove => self.hold(word),
        }
    }

    fn hold(&mut self, word: W) -> Turn<W> {
        self.stage = Stage::Swapping(word);
        Turn::Held
    }

    fn pass(&mut self, c: usize) -> Turn<W> {
        self.passed += 1;
        if self.passed == c {
            return Turn::Finished(match self.operation.kind {
                Kind::Insert | Kind::Add => answer::full(),
                Kind::Find | Kind::Update | Kind::Remove => answer::absent(),
            });
        }
        // c is a power of two: after the last cell comes cell 0.
        self.cell = (self.cell + 1) & (c - 1);
        Turn::Passed
    }

    fn swap(&mut self, held: W, cells: &mut [W]) -> Turn<W> {
        let cell = &mut cells[self.cell];
        if *cell != held {
            // The same cell is read again: the key may stand in it by now.
            self.stage = Stage::Reading;
            return Turn::Lost;
        }
        let Operation { kind, key, amount } = self.operation;
        let old = held.total();
        let (word, answer) = if held == W::EMPTY {
            (W::pack(key, amount), answer::inserted())
        } else {
            match kind {
                Kind::Remove => (W::TOMBSTONE, answer::removed(old)),
                Kind::Add => {
                    let new = W::sum(old, amount);
                    if became_saturated::<W>(old, new) {
                        (W::pack(key, new), answer::capped(old))
                    } else {
                        (W::pack(key, new), answer::changed(old))
                    }
                }
                _ => (W::pack(key, amount), answer::changed(old)),
            }
        };
        *cell = word;
        Turn::Finished(answer)
    }
}
