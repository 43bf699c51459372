//! The journal (card 3): SET, TAKE BACK and MOVE with one journal, with those of others, shared, exchanged, too short and damaged.
//! After every call the reply, every plane, the settings and every word of the journal are compared with the plain record and the
//! rules of the card.
//!
//!     LUPH_SEED=7 LUPH_SESSIONS=100000 cargo test --release --offline --test journal

mod boundary;
mod paper;
mod random;

use luphwezane::{lent, Block, Candidate, Pictures, Refusal, Report, Session, Settings, View};
use paper::{both, Drawing, Record};
use random::{Guarded, GuardedPlanes, Random, Scene, Tried};
use std::collections::BTreeSet;

/// A journal in guarded memory, and the words that it must have.
#[derive(Clone)]
struct Journal {
    words: Guarded<u32>,
    copy: Vec<u32>,
}

impl Journal {
    fn new(words: &[u32]) -> Journal {
        Journal { words: Guarded::new(words, 0x3c3c_3c3c), copy: words.to_vec() }
    }

    /// So many words with anything in them.
    fn any(random: &mut Random, length: usize) -> Journal {
        Journal::new(&(0..length).map(|_| random.word()).collect::<Vec<u32>>())
    }

    fn keep(&mut self) {
        lent::keep(self.words.entries_mut());
        if !self.copy.is_empty() {
            self.copy[0] = 0;
        }
        self.compare();
    }

    fn compare(&self) {
        assert!(self.words.is_intact(), "a guard was written");
        assert_eq!(self.words.entries(), self.copy);
    }
}

/// A session over planes that the test keeps, and its plain record: two depth planes with their fresh drawing, and the settings and
/// the reference of OPEN or of the last accepted MOVE.
#[derive(Clone)]
struct Held<'a> {
    scene: &'a Scene,
    settings: Settings,
    planes: GuardedPlanes,
    seat: Settings,
    reference: Vec<u16>,
    record: [Vec<u8>; 2],
    fresh: Drawing,
}

impl<'a> Held<'a> {
    fn open(random: &mut Random, scene: &'a Scene, journal: &mut Journal) -> Held<'a> {
        let (w, h) = (scene.settings.w as usize, scene.settings.h as usize);
        let planes = GuardedPlanes::new(random, w, h, scene.depths());
        let fresh = paper::drawing(&scene.settings, &scene.pictures(), scene.depths());
        let (settings, seat, reference) = (scene.settings, scene.settings, scene.reference.clone());
        let mut held = Held { scene, settings, planes, seat, reference, record: scene.depths.clone(), fresh };
        assert_eq!(held.reopen(journal), Ok(()));
        held
    }

    /// OPEN over the depths as they stand.
    fn reopen(&mut self, journal: &mut Journal) -> Result<(), Refusal> {
        let pictures = self.scene.pictures_with(&self.reference);
        let number = paper::open_number(&self.settings, &pictures, &self.planes.shared(), &journal.copy);
        let answer = lent::open(&mut self.settings, &pictures, &mut self.planes.lent(), journal.words.entries_mut());
        assert_eq!(answer, Refusal::from_number(number).map_or(Ok(()), Err));
        if answer.is_ok() {
            journal.copy = paper::with_newest(&journal.copy, 0);
        }
        self.compare(journal);
        answer
    }

    /// MOVE empties the journal it is passed, whoever wrote it, and draws the record anew.
    fn move_seat(&mut self, journal: &mut Journal, to: &Settings, reference: Vec<u16>) -> Result<(), Refusal> {
        let pictures = self.scene.pictures_with(&reference);
        let number = paper::move_number(&self.settings, to, &pictures, &self.planes.shared(), &journal.copy);
        let answer = lent::move_seat(&mut self.settings, &pictures, &mut self.planes.lent(), journal.words.entries_mut(), to);
        assert_eq!(answer, Refusal::from_number(number).map_or(Ok(()), Err));
        if answer.is_ok() {
            journal.copy = paper::with_newest(&journal.copy, 0);
            (self.seat, self.reference) = (paper::moved(&self.seat, to), reference);
            self.fresh = paper::drawing(&self.seat, &self.scene.pictures_with(&self.reference), self.record());
        }
        self.compare(journal);
        answer
    }

    /// A MOVE to any seat; one in four is refused.
    fn any_move(&mut self, random: &mut Random, journal: &mut Journal) -> Result<(), Refusal> {
        let (mut to, reference) = (random::seat(random, &self.seat), self.scene.any_reference(random));
        if random.once_in(4) {
            random::spoil_seat(random, &mut to);
        }
        self.move_seat(journal, &to, reference)
    }

    fn record(&self) -> [&[u8]; 2] {
        [&self.record[0], &self.record[1]]
    }

    fn compare(&self, journal: &Journal) {
        journal.compare();
        assert!(self.planes.are_intact(), "a guard was written");
        assert_eq!(self.settings, Settings { total: self.fresh.total, ..self.seat });
        assert_eq!(paper::entries(&self.planes.shared()), paper::entries(&self.fresh.planes(self.record())));
    }

    /// The record with these depths; how its total changes.
    fn becomes(&mut self, depths: [Vec<u8>; 2]) -> i64 {
        let fresh = paper::drawing(&self.settings, &self.scene.pictures_with(&self.reference), [&depths[0], &depths[1]]);
        let change = fresh.total as i64 - self.fresh.total as i64;
        (self.record, self.fresh) = (depths, fresh);
        change
    }

    fn get(&self, journal: &Journal, view: View, block: Block, candidate: Candidate) {
        let depths = paper::written(&self.settings, self.record(), view as usize, block, candidate);
        let pictures = self.scene.pictures_with(&self.reference);
        let total = paper::drawing(&self.settings, &pictures, [&depths[0], &depths[1]]).total;
        let change = total as i64 - self.fresh.total as i64;
        let answer = lent::get(&self.settings, &pictures, &self.planes.shared(), view as u32, block, candidate);
        assert_eq!(answer, Ok(change));
        self.compare(journal);
    }

    /// SET of a candidate that GET accepts.
    fn set(&mut self, journal: &mut Journal, view: View, block: Block, candidate: Candidate) -> Result<i64, Refusal> {
        let (pictures, planes) = (self.scene.pictures_with(&self.reference), &mut self.planes.lent());
        let answer = lent::set(&mut self.settings, &pictures, planes, journal.words.entries_mut(), view as u32, block, candidate);
        match Refusal::from_number(paper::journal_number(&self.seat, &journal.copy, block)) {
            Some(refusal) => assert_eq!(answer, Err(refusal)),
            None => {
                journal.copy = paper::saved(&self.settings, &journal.copy, self.record(), view as usize, block);
                let depths = paper::written(&self.settings, self.record(), view as usize, block, candidate);
                assert_eq!(answer, Ok(self.becomes(depths)));
            }
        }
        self.compare(journal);
        answer
    }

    /// TAKE BACK writes the newest record's depths, whoever wrote it.
    fn take_back(&mut self, journal: &mut Journal) -> Result<i64, Refusal> {
        let pictures = self.scene.pictures_with(&self.reference);
        let number = paper::take_back_number(&self.settings, &pictures, &self.planes.shared(), &journal.copy);
        let answer = lent::take_back(&mut self.settings, &pictures, &mut self.planes.lent(), journal.words.entries_mut());
        match Refusal::from_number(number) {
            Some(refusal) => assert_eq!(answer, Err(refusal)),
            None => {
                let Record { view, block, depths, before, .. } = paper::newest(&self.settings, &journal.copy);
                journal.copy = paper::with_newest(&journal.copy, before);
                let depths = paper::written(&self.settings, self.record(), view as usize, block, Candidate::Full(&depths));
                assert_eq!(answer, Ok(self.becomes(depths)));
            }
        }
        self.compare(journal);
        answer
    }

    fn any_edit(&self, random: &mut Random) -> (View, Block, Tried) {
        random::edit(random, &self.settings, self.record())
    }

    /// A SET of any candidate for any block.
    fn any_set(&mut self, random: &mut Random, journal: &mut Journal) -> Result<i64, Refusal> {
        let (view, block, tried) = self.any_edit(random);
        self.set(journal, view, block, tried.candidate())
    }
}

fn block(column: u32, row: u32, width: u32, height: u32) -> Block {
    Block { column, row, width, height }
}

/// A picture in which every shift shows.
fn scene(w: u32, h: u32) -> Scene {
    let area = (w * h) as usize;
    let table = std::array::from_fn(|d| (d % 40) as u16);
    let texture = |k: usize| (0..area).map(|at| ((at + k) * (at + 3) * 37 % 1021) as u16).collect::<Vec<u16>>();
    let depths = |k: usize| (0..area).map(|at| (at * k % 11) as u8).collect::<Vec<u8>>();
    Scene {
        settings: Settings { w, h, left: table, right: table, share: 24, tolerance: 6, widest_gap: 8, torn_distance: 1, total: 0 },
        textures: [texture(1), texture(2)],
        reference: texture(5),
        depths: [depths(3), depths(4)],
    }
}

/// The words of a journal, one by one, as the card has them.
#[test]
fn words_by_hand() {
    const X: u32 = 7777;
    let table = std::array::from_fn(|d| d as u16);
    let (share, tolerance, widest_gap, torn_distance) = (0, 255, 8, 1);
    let mut settings = Settings { w: 4, h: 2, left: table, right: table, share, tolerance, widest_gap, torn_distance, total: 0 };
    let texture = [10, 20, 30, 40, 50, 60, 70, 80];
    let pictures = Pictures { textures: [&texture, &texture], reference: &texture };
    let mut guarded = GuardedPlanes::new(&mut Random::new(1, 0), 4, 2, [&[1, 2, 3, 4, 5, 6, 7, 8], &[0, 0, 0, 0, 0, 0, 0, 9]]);
    let (planes, mut journal) = (&mut guarded.lent(), [X; 19]);
    assert_eq!(lent::open(&mut settings, &pictures, planes, &mut journal), Ok(()));
    assert_eq!(journal, [0, X, X, X, X, X, X, X, X, X, X, X, X, X, X, X, X, X, X]);
    let opened = settings;
    assert_eq!(lent::take_back(&mut settings, &pictures, planes, &mut journal), Err(Refusal::NothingToTakeBack));

    let (left, right) = (block(1, 0, 2, 2), block(3, 1, 1, 1));
    let first = lent::set(&mut settings, &pictures, planes, &mut journal, 0, left, Candidate::Flat(9)).expect("SET accepts it");
    assert_eq!(journal, [1, 0, 0, 1, 0, 2, 2, 2, 3, 6, 7, X, X, X, X, X, X, X, X]);
    let second = lent::set(&mut settings, &pictures, planes, &mut journal, 1, right, Candidate::Full(&[5])).expect("SET accepts it");
    assert_eq!(journal, [11, 0, 0, 1, 0, 2, 2, 2, 3, 6, 7, 1, 1, 3, 1, 1, 1, 9, X]);
    let full = lent::set(&mut settings, &pictures, planes, &mut journal, 1, right, Candidate::Full(&[5]));
    assert_eq!(full, Err(Refusal::JournalFull));
    assert_eq!(lent::take_back(&mut settings, &pictures, planes, &mut journal), Ok(-second));
    assert_eq!(journal, [1, 0, 0, 1, 0, 2, 2, 2, 3, 6, 7, 1, 1, 3, 1, 1, 1, 9, X]);

    // The space is used again; the new record is one depth longer.
    let third =
        lent::set(&mut settings, &pictures, planes, &mut journal, 1, block(2, 0, 2, 1), Candidate::Flat(4)).expect("SET accepts it");
    assert_eq!(journal, [11, 0, 0, 1, 0, 2, 2, 2, 3, 6, 7, 1, 1, 2, 0, 2, 1, 0, 0]);
    assert_eq!(lent::take_back(&mut settings, &pictures, planes, &mut journal), Ok(-third));
    assert_eq!(lent::take_back(&mut settings, &pictures, planes, &mut journal), Ok(-first));
    assert_eq!(journal, [0, 0, 0, 1, 0, 2, 2, 2, 3, 6, 7, 1, 1, 2, 0, 2, 1, 0, 0]);
    assert_eq!(settings, opened);
    assert_eq!(lent::check(&settings, &pictures, &planes.shared()), Ok(Report::Sound));

    // What is there is ignored by OPEN, and kept SETs stay.
    lent::set(&mut settings, &pictures, planes, &mut journal, 0, left, Candidate::Flat(9)).expect("SET accepts it");
    lent::keep(&mut journal);
    assert_eq!(journal, [0, 0, 0, 1, 0, 2, 2, 2, 3, 6, 7, 1, 1, 2, 0, 2, 1, 0, 0]);
    assert_eq!(lent::take_back(&mut settings, &pictures, planes, &mut journal), Err(Refusal::NothingToTakeBack));
    assert_eq!(*planes.depths[0], [1, 9, 9, 4, 5, 9, 9, 8]);
    journal[0] = u32::MAX;
    assert_eq!(lent::open(&mut settings, &pictures, planes, &mut journal), Ok(()));
    assert_eq!((journal[0], journal[1..11].to_vec()), (0, vec![0, 0, 1, 0, 2, 2, 2, 3, 6, 7]));

    // MOVE ignores it too, writes word 0 alone, and the next record stands after word 0.
    lent::set(&mut settings, &pictures, planes, &mut journal, 0, left, Candidate::Flat(7)).expect("SET accepts it");
    journal[1] = 1;
    let to = Settings { share: 64, ..settings };
    assert_eq!(lent::move_seat(&mut settings, &pictures, planes, &mut journal, &to), Ok(()));
    assert_eq!(journal, [0, 1, 0, 1, 0, 2, 2, 9, 9, 9, 9, 1, 1, 2, 0, 2, 1, 0, 0]);
    assert_eq!(lent::take_back(&mut settings, &pictures, planes, &mut journal), Err(Refusal::NothingToTakeBack));
    lent::set(&mut settings, &pictures, planes, &mut journal, 1, right, Candidate::Flat(1)).expect("SET accepts it");
    assert_eq!(journal, [1, 0, 1, 3, 1, 1, 1, 9, 9, 9, 9, 1, 1, 2, 0, 2, 1, 0, 0]);
    lent::keep(&mut []);
}

/// A journal of three records of both views, whose blocks overlap, and the session that wrote it.
fn three_records<'a>(random: &mut Random, scene: &'a Scene, length: usize) -> (Held<'a>, Journal) {
    let mut journal = Journal::any(random, length);
    let mut held = Held::open(random, scene, &mut journal);
    held.set(&mut journal, View::Left, block(0, 0, 3, 2), Candidate::Flat(30)).expect("SET accepts it");
    held.set(&mut journal, View::Right, block(1, 1, 4, 1), Candidate::Flat(12)).expect("SET accepts it");
    held.set(&mut journal, View::Left, block(2, 0, 1, 3), Candidate::Full(&[1, 2, 3])).expect("SET accepts it");
    assert_eq!((journal.copy[0], journal.copy[23], journal.copy[13]), (23, 13, 1));
    (held, journal)
}

/// What the word at an index of that journal is.
fn part(at: usize) -> &'static str {
    let start = [1, 13, 23].into_iter().rev().find(|&start| start <= at);
    match start.map(|start| at - start) {
        None => "word 0",
        Some(_) if at >= 32 => "beyond",
        Some(word) => ["before", "view", "column", "row", "width", "height", "depth"][word.min(6)],
    }
}

/// Every word of a journal replaced by each of these: what stands there plus and minus one, indexes of records and of their ends,
/// columns and rows, and the edges of what a depth, a view and a word can be.
#[test]
fn every_word_replaced() {
    let (random, scene) = (&mut Random::new(1, 0), scene(5, 3));
    let (held, journal) = three_records(random, &scene, 32 + 8);
    let mut reached = BTreeSet::new();
    let values = [0, 1, 2, 3, 4, 5, 6, 7, 12, 13, 14, 22, 23, 24, 31, 32, 33, 34, 39, 40, 41, 254, 255, 256, 257, 1 << 16, 1 << 31];
    for at in 0..journal.copy.len() {
        let own = journal.copy[at];
        let near = [own.wrapping_sub(1), own.wrapping_add(1), u32::MAX - 1, u32::MAX, u32::MAX - 6, own.wrapping_add(256)];
        for value in values.into_iter().chain(near) {
            let mut damaged = journal.copy.clone();
            damaged[at] = value;
            let (mut set, mut back) = (Journal::new(&damaged), Journal::new(&damaged));
            let answer = held.clone().set(&mut set, View::Right, block(3, 0, 2, 1), Candidate::Flat(40));
            let taken = held.clone().take_back(&mut back);
            let number = |answer: Result<i64, Refusal>| answer.map_or_else(Refusal::number, |_| 0);
            reached.insert((part(at), number(answer), number(taken)));
        }
    }
    let kinds = ["before", "column", "depth", "height", "row", "view", "width", "word 0"];
    for what in kinds {
        assert!(reached.contains(&(what, 13, 13)), "no {what} is refused");
        assert!(reached.contains(&(what, 0, 0)), "no {what} is taken");
    }
    assert!(reached.contains(&("word 0", 0, 12)) && reached.contains(&("beyond", 0, 0)));
    assert!(reached.iter().all(|(what, set, _)| *what != "beyond" || *set == 0), "words beyond the newest record are not looked at");
}

/// The same journal with every length: too short for its records, for the SET, and long enough.
#[test]
fn every_length() {
    let (random, scene) = (&mut Random::new(1, 0), scene(5, 3));
    let (held, journal) = three_records(random, &scene, 32 + 30);
    for length in 0..=journal.copy.len() {
        let cut = Journal::new(&journal.copy[..length]);
        for (at, area) in [(block(3, 2, 1, 1), 1), (block(0, 0, 2, 3), 6), (block(0, 0, 5, 3), 15)] {
            let set = held.clone().set(&mut cut.clone(), View::Left, at, Candidate::Flat(3)).map(|_| ());
            let expected = match length {
                0..=31 => Err(Refusal::Journal),
                _ if length < 32 + 6 + area => Err(Refusal::JournalFull),
                _ => Ok(()),
            };
            assert_eq!(set, expected, "{length} words");
            let mut empty = cut.clone();
            empty.keep();
            let expected = match length {
                0 => Err(Refusal::Journal),
                _ if length < 1 + 6 + area => Err(Refusal::JournalFull),
                _ => Ok(()),
            };
            assert_eq!(
                held.clone().take_back(&mut empty).err(),
                Some(if length == 0 { Refusal::Journal } else { Refusal::NothingToTakeBack })
            );
            assert_eq!(
                held.clone().set(&mut empty, View::Left, at, Candidate::Flat(3)).map(|_| ()),
                expected,
                "{length} words, none standing"
            );
        }
        assert_eq!(held.clone().take_back(&mut cut.clone()).is_ok(), length >= 32, "{length} words");
        assert_eq!(held.clone().reopen(&mut cut.clone()).is_ok(), length > 0, "{length} words");
        let moved = held.clone().move_seat(&mut cut.clone(), &held.settings, scene.reference.clone());
        assert_eq!(moved, if length > 0 { Ok(()) } else { Err(Refusal::Journal) }, "{length} words");
    }
}

/// Records that overlap or leave gaps are taken: nothing but what is listed is refused.
#[test]
fn overlapping_records_and_gaps() {
    let (random, scene) = (&mut Random::new(1, 0), scene(9, 8));
    let held = Held::open(random, &scene, &mut Journal::new(&[0]));
    // The record at 1 has its depths where the one at 7 stands; the one at 30 leaves a gap.
    let mut words = vec![0; 60];
    words[1..7].copy_from_slice(&[0, 0, 2, 1, 4, 1]);
    words[7..13].copy_from_slice(&[1, 1, 3, 2, 1, 2]);
    words[13..15].copy_from_slice(&[200, 255]);
    words[30..38].copy_from_slice(&[7, 1, 8, 7, 1, 1, 44, 0]);
    words[0] = 30;
    let (mut one, mut journal) = (held.clone(), Journal::new(&words));
    one.set(&mut journal, View::Left, block(0, 0, 3, 3), Candidate::Flat(9)).expect("SET accepts it");
    assert_eq!((journal.copy[0], journal.copy[37]), (37, 30));
    for newest in [30, 7, 1, 0] {
        one.take_back(&mut journal).expect("TAKE BACK accepts it");
        assert_eq!(journal.copy[0], newest);
    }
    assert_eq!(one.record[0][11..15], [1, 1, 3, 2]);
    assert_eq!(one.take_back(&mut journal), Err(Refusal::NothingToTakeBack));

    // The newest record ends within the one before: a SET writes its record over depths of that, which change with it.
    words[1..7].copy_from_slice(&[0, 1, 0, 0, 9, 5]);
    words[0] = 7;
    let (mut one, mut journal) = (held.clone(), Journal::new(&words));
    one.set(&mut journal, View::Right, block(0, 0, 2, 3), Candidate::Flat(9)).expect("SET accepts it");
    assert_eq!(journal.copy[15..18], [7, 1, 0]);
    one.take_back(&mut journal).expect("TAKE BACK accepts it");
    one.take_back(&mut journal).expect("TAKE BACK accepts it");
    one.take_back(&mut journal).expect("TAKE BACK accepts it");
    assert_eq!(one.record[1][..6], [1, 1, 3, 2, 1, 2]);

    // A chain may skip records that stand between.
    words[30] = 0;
    words[0] = 30;
    let (mut one, mut journal) = (held.clone(), Journal::new(&words));
    assert!(one.take_back(&mut journal).is_ok());
    assert_eq!(journal.copy[0], 0);
}

/// A journal that another session wrote, of another size of picture, is judged by the picture of the call.
#[test]
fn foreign_journals() {
    let random = &mut Random::new(1, 0);
    let (large, small) = (scene(12, 9), scene(5, 3));
    let (mut theirs, mut own) = (Journal::any(random, 200), Journal::any(random, 200));
    let mut writer = Held::open(random, &large, &mut theirs);
    let mut reader = Held::open(random, &small, &mut own);
    writer.set(&mut theirs, View::Right, block(1, 1, 4, 2), Candidate::Flat(77)).expect("SET accepts it");
    let fits = theirs.clone();
    writer.set(&mut theirs, View::Left, block(5, 0, 1, 1), Candidate::Flat(66)).expect("SET accepts it");
    assert_eq!(reader.take_back(&mut theirs), Err(Refusal::Journal), "column 5 is past the edge");
    assert_eq!(reader.set(&mut theirs, View::Left, block(0, 0, 1, 1), Candidate::Flat(1)), Err(Refusal::Journal));
    let mut journal = fits;
    reader.set(&mut journal, View::Left, block(0, 0, 5, 3), Candidate::Flat(1)).expect("SET accepts it");
    reader.take_back(&mut journal).expect("TAKE BACK accepts it");
    reader.take_back(&mut journal).expect("TAKE BACK accepts it");
    let written = paper::depths_of(&large.settings, &large.depths[1], block(1, 1, 4, 2));
    assert_eq!(paper::depths_of(&small.settings, &reader.record[1], block(1, 1, 4, 2)), written);
    assert_eq!(reader.take_back(&mut journal), Err(Refusal::NothingToTakeBack));
}

/// Two sessions and a few journals, in any order: each SET, TAKE BACK, OPEN and MOVE is passed any of them, some are damaged or
/// emptied in between, and now and then they are cut.
#[test]
fn shared_and_exchanged_journals() {
    random::sessions("shared and exchanged journals", 6000, |random, _| {
        let (w, h) = (random.between(1, 12), random.between(1, 5));
        let turns = [random.next(), random.next()];
        let one = Scene::sized(random, w, h, turns[0]);
        let (w, h) = if random.once_in(2) { (w, h) } else { (random.between(1, 12), random.between(1, 5)) };
        let other = Scene::sized(random, w, h, turns[1]);
        let mut journals: Vec<Journal> = [1, 2, 4].map(|n| Journal::any(random, n * 70)).into();
        let mut sessions = [Held::open(random, &one, &mut journals[0]), Held::open(random, &other, &mut journals[1])];
        if random.once_in(2) {
            journals[2].keep();
        }
        for _ in 0..random.between(4, 24) {
            let (held, journal) = (&mut sessions[random.between(0, 1)], &mut journals[random.between(0, 2)]);
            match random.between(0, 17) {
                0..=5 => _ = held.any_set(random, journal),
                6..=10 => _ = held.take_back(journal),
                11 => {
                    let (view, block, tried) = held.any_edit(random);
                    held.get(journal, view, block, tried.candidate());
                }
                12 => _ = held.reopen(journal),
                13 => journal.keep(),
                14 => {
                    let mut words = journal.copy.clone();
                    random::damage_journal(random, &held.settings, &mut words);
                    *journal = Journal::new(&words);
                }
                15 | 16 => _ = held.any_move(random, journal),
                _ => {
                    let mut words = journal.copy.clone();
                    words.resize(random.between(0, words.len() + 20), 0);
                    *journal = Journal::new(&words);
                }
            }
        }
    });
}

/// Runs whose OPEN, SETs, TAKE BACKs and MOVEs have one journal, long enough or not: GET, SET, TAKE BACK and MOVE in any order,
/// halted after every call. The end is the depths of OPEN or of the last accepted MOVE with the SETs that stand written in turn,
/// TAKE BACK answers their changes negated, 12 exactly where none stands, and 13 never. It is that of a fresh OPEN with the
/// settings and the reference of that MOVE.
#[test]
fn runs_with_one_journal() {
    random::sessions("runs with one journal", 3000, |random, number| {
        let (w, h) = (random.between(1, 20), random.between(1, 5));
        let scene = Scene::sized(random, w, h, number);
        let mut journal = random::journal(random, w * h).entries().to_vec();
        journal.truncate(random.pick(&[usize::MAX, usize::MAX, 8, 30, 90]));
        let mut journal = Journal::new(&journal);
        let mut held = Held::open(random, &scene, &mut journal);
        let (mut opening, mut standing) = (scene.depths.clone(), Vec::<(View, Block, Vec<u8>, i64)>::new());
        for _ in 0..random.between(1, 40) {
            match random.between(0, 10) {
                0 => {
                    let (view, block, tried) = held.any_edit(random);
                    held.get(&journal, view, block, tried.candidate());
                }
                1..=6 => {
                    let (view, block, tried) = held.any_edit(random);
                    match held.set(&mut journal, view, block, tried.candidate()) {
                        Ok(change) => standing.push((view, block, paper::filled(block, tried.candidate()), change)),
                        Err(refusal) => assert_eq!(refusal, Refusal::JournalFull),
                    }
                }
                7 => {
                    if held.any_move(random, &mut journal).is_ok() {
                        (opening, standing) = (held.record.clone(), Vec::new());
                    }
                }
                _ => {
                    let expected = standing.pop().map_or(Err(Refusal::NothingToTakeBack), |(_, _, _, change)| Ok(-change));
                    assert_eq!(held.take_back(&mut journal), expected);
                }
            }
            let mut depths = opening.clone();
            for (view, block, full, _) in &standing {
                depths = paper::written(&scene.settings, both(&depths), *view as usize, *block, Candidate::Full(full));
            }
            assert!(depths == held.record, "the SETs that stand make other depths");
            let pictures = scene.pictures_with(&held.reference);
            assert_eq!(lent::check(&held.settings, &pictures, &held.planes.shared()), Ok(Report::Sound));
            let open = Session::open(&held.seat, &pictures, both(&depths)).expect("OPEN accepts it");
            assert_eq!((*open.settings(), open.planes().combined), (held.settings, held.planes.shared().combined));
        }
    });
}

/// A hundred SETs of both views, every kind of candidate and blocks that overlap, all taken back: on the way every state is again
/// what it was, and at the end everything is as it was opened.
#[test]
fn a_hundred_sets_taken_back() {
    for seed in 0..4 {
        let random = &mut Random::new(seed, 100);
        let scene = Scene::sized(random, 24, 9, 30 + 65 * seed);
        let mut journal = Journal::any(random, 1 + 100 * (6 + 24 * 9));
        let mut held = Held::open(random, &scene, &mut journal);
        let mut session = Session::open(&scene.settings, &scene.pictures(), scene.depths()).expect("OPEN accepts it");
        let (opened, mut before, mut kinds) = (held.clone(), Vec::new(), BTreeSet::new());
        for _ in 0..100 {
            let (view, at, tried) = held.any_edit(random);
            kinds.insert((view as usize, tried.kind));
            let state = held.clone();
            let change = held.set(&mut journal, view, at, tried.candidate()).expect("SET accepts it");
            assert_eq!(session.set(view, at, tried.candidate()), Ok(change));
            before.push((state, change));
        }
        assert_eq!(kinds, (0..2).flat_map(|view| (0..4).map(move |kind| (view, kind))).collect());
        for (state, change) in before.iter().rev() {
            assert_eq!(held.take_back(&mut journal), Ok(-change));
            assert_eq!(session.take_back(), Ok(-change));
            assert!((&held.planes, held.settings) == (&state.planes, state.settings), "TAKE BACK restores every plane and the total");
            assert!(session.planes().combined == state.planes.shared().combined && session.total() == state.settings.total);
        }
        let (now, then) = (held.planes.shared(), opened.planes.shared());
        assert_eq!((now.depths, now.samples, now.fronts), (then.depths, then.samples, then.fronts));
        assert_eq!((now.limits, now.marks, now.combined), (then.limits, then.marks, then.combined));
        assert_eq!((held.settings, session.settings()), (opened.settings, &opened.settings));
        assert_eq!(held.take_back(&mut journal), Err(Refusal::NothingToTakeBack));
        assert_eq!(session.take_back(), Err(Refusal::NothingToTakeBack));
        assert_eq!(session.check(), Report::Sound);
    }
}

/// All that a call is passed, for refusals that apply together.
#[derive(Clone, PartialEq)]
struct Call {
    settings: Settings,
    textures: [Vec<u16>; 2],
    reference: Vec<u16>,
    planes: GuardedPlanes,
    journal: Vec<u32>,
    view: u32,
    block: Block,
    candidate: Tried,
}

/// What makes a call be refused: a number, and where several ways lead to it which one.
type Fault = (u32, &'static str);

impl Call {
    fn new() -> Call {
        let (random, scene) = (&mut Random::new(1, 0), scene(5, 3));
        let (held, journal) = three_records(random, &scene, 32 + 6 + 4);
        Call {
            settings: held.settings,
            textures: scene.textures.clone(),
            reference: scene.reference.clone(),
            planes: held.planes,
            journal: journal.copy,
            view: 1,
            block: block(1, 1, 2, 2),
            candidate: random::full(&[9; 4]),
        }
    }

    /// Makes the call one that is refused so. Faults of one call are made in the order of its list, the last first.
    fn spoil(&mut self, (number, way): Fault) {
        let end = 32;
        match (number, way) {
            (1, _) => self.settings.h = 4097,
            (2, _) => self.reference.push(0),
            (3, _) => self.settings.left[200] = 1024,
            (4, _) => self.settings.share = 65,
            (20, "gap") => self.settings.widest_gap = 65,
            (20, _) => self.settings.torn_distance = 4,
            (5, _) => self.block.column = 4,
            (6, _) => self.view = 2,
            (7, _) => self.candidate = random::full(&[9; 3]),
            (14, _) => self.candidate.kind = 2,
            (15, _) => (self.candidate.kind, self.candidate.bytes) = (3, Guarded::new(&[1, 2], 0)),
            (8, _) => self.settings.total = u64::MAX,
            (11, _) => self.journal.truncate(end + 6 + 3),
            (12, _) => self.journal[0] = 0,
            (13, "no words") => self.journal.clear(),
            (13, "depth") => self.journal[1 + 6] = 256,
            (13, "view") => self.journal[23 + 1] = 2,
            (13, "chain") => self.journal[13] = 13,
            (13, "end") => self.journal.truncate(end - 1),
            (13, "block") => self.journal[23 + 4] = 0,
            (21, _) => self.textures[0][0] = 1024,
            other => panic!("no such fault: {other:?}"),
        }
    }

    /// Spoilt in two ways, of which the first is to be answered.
    fn spoilt(first: Fault, second: Fault) -> Call {
        let mut call = Call::new();
        call.spoil(second);
        call.spoil(first);
        call
    }

    /// The number of a call, 0 where it is accepted; a refused call leaves everything.
    fn number<T>(&self, name: &str, answer: impl Fn(&mut Call) -> Result<T, Refusal>) -> u32 {
        let mut call = self.clone();
        let number = answer(&mut call).map_or_else(Refusal::number, |_| 0);
        assert!(number == 0 || call == *self, "a refused {name} wrote");
        number
    }

    fn open(&self) -> u32 {
        self.number("OPEN", |Call { settings, textures, reference, planes, journal, .. }| {
            lent::open(settings, &Pictures { textures: both(textures), reference }, &mut planes.lent(), journal)
        })
    }

    fn set(&self) -> u32 {
        self.number("SET", |Call { settings, textures, reference, planes, journal, view, block, candidate }| {
            let pictures = Pictures { textures: both(textures), reference };
            boundary::set(settings, &pictures, &mut planes.lent(), journal, *view, *block, candidate)
        })
    }

    fn take_back(&self) -> u32 {
        self.number("TAKE BACK", |Call { settings, textures, reference, planes, journal, .. }| {
            boundary::take_back(settings, &Pictures { textures: both(textures), reference }, &mut planes.lent(), journal)
        })
    }
}

/// Every fault of a list alone, and every two together: the first of the list is answered.
fn assert_order(list: &[Fault], number: impl Fn(&Call) -> u32, apart: impl Fn(Fault, Fault) -> bool) {
    for (k, &first) in list.iter().enumerate() {
        let mut call = Call::new();
        call.spoil(first);
        assert_eq!(number(&call), first.0, "{first:?}");
        for &second in &list[k + 1..] {
            if first.0 != second.0 && !apart(first, second) {
                assert_eq!(number(&Call::spoilt(first, second)), first.0, "{first:?} before {second:?}");
            }
        }
    }
}

const COMMON: [Fault; 6] = [(1, ""), (2, ""), (3, ""), (4, ""), (20, "gap"), (20, "distance")];
const JOURNAL: [Fault; 6] = [(13, "no words"), (13, "depth"), (13, "view"), (13, "chain"), (13, "end"), (13, "block")];

#[test]
fn the_order_of_refusals() {
    let call = Call::new();
    assert_eq!((call.open(), call.set(), call.take_back()), (0, 0, 0));

    let open = [&COMMON[..], &[(13, "no words"), (21, "")]].concat();
    assert_order(&open, Call::open, |_, _| false);
    for &damage in &JOURNAL[1..] {
        let mut call = Call::new();
        call.spoil(damage);
        assert_eq!(call.open(), 0, "OPEN does not look at {damage:?}");
    }

    // A candidate has one kind.
    let set = [&COMMON[..], &[(6, ""), (5, ""), (7, ""), (14, ""), (15, ""), (8, "")], &JOURNAL, &[(11, "")]].concat();
    let kinds = [7, 14, 15];
    assert_order(&set, Call::set, |first, second| kinds.contains(&first.0) && kinds.contains(&second.0));

    // A journal whose word 0 is 0 has no chain to be wrong.
    let take_back = [&COMMON[..], &JOURNAL, &[(12, ""), (8, "")]].concat();
    assert_order(&take_back, Call::take_back, |first, second| first.0 == 13 && first.1 != "no words" && second.0 == 12);
    let mut call = Call::new();
    [(13, "depth"), (12, "")].into_iter().for_each(|fault| call.spoil(fault));
    assert_eq!(call.take_back(), 12);
    [(8, ""), (11, "")].into_iter().for_each(|fault| call.spoil(fault));
    assert_eq!(call.take_back(), 12);
}

/// The empty `Vec`'s slice, and a slice of no words of a journal that has some.
#[test]
fn journals_of_no_words() {
    let (mut call, mut words) = (Call::new(), [7_u32; 3]);
    let Call { settings, textures, reference, planes, .. } = &mut call;
    let pictures = Pictures { textures: both(textures), reference };
    for none in [&mut [][..], &mut words[3..]] {
        let at = block(0, 0, 1, 1);
        assert_eq!(lent::open(settings, &pictures, &mut planes.lent(), none), Err(Refusal::Journal));
        assert_eq!(lent::set(settings, &pictures, &mut planes.lent(), none, 0, at, Candidate::Flat(1)), Err(Refusal::Journal));
        assert_eq!(lent::take_back(settings, &pictures, &mut planes.lent(), none), Err(Refusal::Journal));
    }
    assert!(call == Call::new(), "a refused call wrote");
}

/// Words of which few are ever touched: more than 2³² of them take 16 GB of addresses, and hardly any memory.
mod mapped {
    extern "C" {
        fn mmap(address: *mut u8, length: usize, protection: i32, flags: i32, file: i32, offset: i64) -> *mut u32;
        fn munmap(address: *mut u32, length: usize) -> i32;
    }

    pub struct Words(*mut u32, usize);

    impl Words {
        /// So many words of 0, or nothing where the system does not give so many addresses.
        pub fn new(length: usize) -> Option<Words> {
            const READ_AND_WRITE: i32 = 1 | 2;
            const PRIVATE_ANONYMOUS_NORESERVE: i32 = 0x2 | 0x20 | 0x4000;
            // SAFETY: a new mapping of anonymous memory touches no other.
            let start = unsafe { mmap(std::ptr::null_mut(), 4 * length, READ_AND_WRITE, PRIVATE_ANONYMOUS_NORESERVE, -1, 0) };
            (start as isize != -1).then_some(Words(start, length))
        }

        pub fn slice(&mut self) -> &mut [u32] {
            // SAFETY: the mapping has so many words, all 0 at first, and lives as long as this.
            unsafe { std::slice::from_raw_parts_mut(self.0, self.1) }
        }
    }

    impl Drop for Words {
        fn drop(&mut self) {
            // SAFETY: this is the mapping that was made.
            unsafe { munmap(self.0, 4 * self.1) };
        }
    }
}

/// A record may stand at the last index of 32 bits; one that would stand behind it is refused with 11, whatever room there is.
#[test]
fn an_index_passes_32_bits() {
    let last = u32::MAX as usize;
    let Some(mut words) = mapped::Words::new(last + 100) else {
        assert!(
            std::env::var("LUPH_WITHOUT_16_GB").is_ok_and(|allowed| allowed == "1"),
            "an index past 32 bits is not tested: the system gives no 16 GB of addresses; LUPH_WITHOUT_16_GB=1 allows that"
        );
        return eprintln!("an index past 32 bits is not tested: the system gives no 16 GB of addresses");
    };
    let mut call = Call::new();
    let Call { settings, textures, reference, planes, .. } = &mut call;
    let (pictures, at, opened) = (Pictures { textures: both(textures), reference }, block(1, 1, 2, 1), *settings);
    let (planes, journal) = (&mut planes.lent(), words.slice());

    // The newest record ends one word before the last index, or at it: the next stands at the last index, or would pass it.
    for (newest, accepted) in [(last - 7, true), (last - 6, false), (last, false)] {
        journal[newest..newest + 7].copy_from_slice(&[0, 0, 3, 2, 1, 1, 44]);
        journal[0] = newest as u32;
        let before = journal[last - 20..].to_vec();
        let answer = lent::set(settings, &pictures, planes, journal, 1, at, Candidate::Flat(9));
        if accepted {
            let change = answer.expect("SET accepts it");
            assert_eq!((journal[0], &journal[last..last + 6]), (u32::MAX, &[newest as u32, 1, 1, 1, 2, 1][..]));
            assert_eq!(lent::set(settings, &pictures, planes, journal, 1, at, Candidate::Flat(8)), Err(Refusal::JournalFull));
            assert_eq!(lent::take_back(settings, &pictures, planes, journal), Ok(-change));
        } else {
            assert_eq!(answer, Err(Refusal::JournalFull));
            assert!(journal[last - 20..] == before, "a refused SET wrote");
        }
        assert_eq!((journal[0], *settings), (newest as u32, opened));
    }

    // The record at the last index is taken back like any other, and where its depths end the journal may.
    lent::take_back(settings, &pictures, planes, journal).expect("TAKE BACK accepts it");
    assert_eq!((journal[0], planes.depths[0][13]), (0, 44));
    journal[0] = u32::MAX;
    assert!(lent::take_back(settings, &pictures, planes, &mut journal[..last + 7]).is_ok());
    journal[0] = u32::MAX;
    assert_eq!(lent::take_back(settings, &pictures, planes, &mut journal[..last + 6]), Err(Refusal::Journal));
    assert_eq!(lent::take_back(settings, &pictures, planes, &mut journal[..last]), Err(Refusal::Journal));
}
