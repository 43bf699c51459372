//! Random sessions, matched with the independent renderer: every reply, every plane with its spare bits, the total, every word
//! of the journal, CHECK and HOLES after every call.
//!
//! Each session runs twice at once: over guarded planes and a journal that the test keeps, and as a `Session`. A longer run:
//!
//!     LUPH_SEED=7 LUPH_SESSIONS=100000 cargo test --release --offline --test sessions

mod boundary;
mod paper;
mod random;

use luphwezane::{lent, Block, Candidate, Pictures, Planes, Refusal, Report, Session, Settings, View};
use paper::Drawing;
use random::{Guarded, GuardedPlanes, Move, Random, Scene, Tried};
use std::collections::BTreeSet;

/// A session under test, and the plain record that it is matched with.
struct Run {
    scene: Scene,
    /// What the calls are passed and answer. The scene has the settings and the reference of the last accepted MOVE.
    settings: Settings,
    planes: GuardedPlanes,
    journal: Guarded<u32>,
    session: Session,
    /// The record: two depth planes, their fresh drawing, and a copy of the journal by the rules.
    record: [Vec<u8>; 2],
    fresh: Drawing,
    copy: Vec<u32>,
    /// The depths that the run began with, and the SETs that still stand.
    opening: [Vec<u8>; 2],
    standing: Vec<Standing>,
}

/// A SET that has not been taken back.
struct Standing {
    view: View,
    block: Block,
    depths: Vec<u8>,
    change: i64,
    /// What was drawn before it.
    before: Drawing,
}

impl Run {
    fn open(random: &mut Random, scene: Scene) -> Run {
        let (w, h) = (scene.settings.w as usize, scene.settings.h as usize);
        let mut settings = scene.settings;
        let mut planes = GuardedPlanes::new(random, w, h, scene.depths());
        let mut journal = random::journal(random, w * h);
        let copy = paper::with_newest(journal.entries(), 0);
        assert_eq!(lent::open(&mut settings, &scene.pictures(), &mut planes.lent(), journal.entries_mut()), Ok(()));
        let session = Session::open(&scene.settings, &scene.pictures(), scene.depths()).expect("OPEN accepts it too");
        let fresh = paper::drawing(&scene.settings, &scene.pictures(), scene.depths());
        let (record, opening) = (scene.depths.clone(), scene.depths.clone());
        let run = Run { scene, settings, planes, journal, session, record, fresh, copy, opening, standing: Vec::new() };
        run.compare();
        run
    }

    fn record(&self) -> [&[u8]; 2] {
        [&self.record[0], &self.record[1]]
    }

    fn drawing(&self, depths: &[Vec<u8>; 2]) -> Drawing {
        paper::drawing(&self.scene.settings, &self.scene.pictures(), [&depths[0], &depths[1]])
    }

    /// All that is held, against the record and its fresh drawing.
    fn compare(&self) {
        let settings = Settings { total: self.fresh.total, ..self.scene.settings };
        assert_eq!(self.settings, settings);
        assert_eq!(*self.session.settings(), settings);
        assert!(self.planes.are_intact() && self.journal.is_intact(), "a guard was written");
        assert!(self.journal.entries() == self.copy, "the journal is another");
        self.compare_planes(&self.planes.shared());
        self.compare_planes(&self.session.planes());
        assert_eq!(lent::check(&self.settings, &self.scene.pictures(), &self.planes.shared()), Ok(Report::Sound));
        assert_eq!(self.session.check(), Report::Sound);
        for view in View::BOTH {
            let holes = paper::holes(&self.settings, &self.fresh.marks[view as usize]);
            assert_eq!(lent::holes(&self.settings, view as u32, self.planes.shared().marks), Ok(holes));
            assert_eq!(self.session.holes(view), holes);
        }
    }

    fn compare_planes(&self, planes: &Planes) {
        for v in 0..2 {
            assert_eq!(planes.depths[v], self.record[v], "depths of view {v}");
            assert_eq!(planes.samples[v], self.fresh.samples[v], "samples of view {v}");
            assert_eq!(planes.fronts[v], self.fresh.fronts[v], "fronts of view {v}");
            assert_eq!(planes.limits[v], self.fresh.limits[v], "limits of view {v}");
            assert_eq!(planes.marks[v], self.fresh.marks[v], "marks of view {v}");
        }
        assert_eq!(planes.combined, self.fresh.combined, "combined picture");
    }

    /// GET by both, and through the library's symbol: each answers the same for the candidate and for the full block that it
    /// fills. One column of one row changes the total by no more than card 4 says.
    fn get(&self, view: View, block: Block, tried: &Tried) -> i64 {
        let candidate = tried.candidate();
        let depths = paper::written(&self.settings, self.record(), view as usize, block, candidate);
        let change = self.drawing(&depths).total as i64 - self.fresh.total as i64;
        let (pictures, planes, full) = (self.scene.pictures(), self.planes.shared(), paper::filled(block, candidate));
        assert_eq!(boundary::get(&self.settings, &pictures, &planes, view as u32, block, tried), Ok(change));
        if (block.width, block.height) == (1, 1) {
            let reach = paper::Reach::in_plane(&self.settings, view as usize, &self.record[view as usize], block, full[0]);
            assert!(change.unsigned_abs() <= reach.most_change(), "{change} is beyond the bound of {reach:?}");
        }
        for candidate in [candidate, Candidate::Full(&full)] {
            assert_eq!(lent::get(&self.settings, &pictures, &planes, view as u32, block, candidate), Ok(change));
            assert_eq!(self.session.get(view, block, candidate), Ok(change));
        }
        self.compare();
        change
    }

    /// SET by both, by one of them as a full block. Where the journal has no room for it, both keep what they have first.
    fn set(&mut self, random: &mut Random, view: View, block: Block, tried: &Tried) -> i64 {
        let candidate = tried.candidate();
        if paper::journal_number(&self.settings, &self.copy, block) == 11 {
            self.full(view, block, tried);
        }
        let depths = paper::written(&self.settings, self.record(), view as usize, block, candidate);
        let fresh = self.drawing(&depths);
        let change = fresh.total as i64 - self.fresh.total as i64;
        let (pictures, full) = (self.scene.pictures(), paper::filled(block, candidate));
        let (planes, journal) = (&mut self.planes.lent(), self.journal.entries_mut());
        let mut candidates = [candidate, Candidate::Full(&full)];
        if random.once_in(2) {
            candidates.reverse();
        }
        assert_eq!(lent::set(&mut self.settings, &pictures, planes, journal, view as u32, block, candidates[0]), Ok(change));
        assert_eq!(self.session.set(view, block, candidates[1]), Ok(change));
        self.copy = paper::saved(&self.settings, &self.copy, self.record(), view as usize, block);
        let before = (std::mem::replace(&mut self.record, depths), std::mem::replace(&mut self.fresh, fresh));
        self.compare();
        self.compare_span(view as usize, block, &before.0, &before.1);
        self.standing.push(Standing { view, block, depths: full, change, before: before.1 });
        change
    }

    /// A SET that the journal has no room for: it is refused and all stays. Then what is set is kept, and the SET has room.
    fn full(&mut self, view: View, block: Block, tried: &Tried) {
        let (pictures, planes, journal) = (self.scene.pictures(), &mut self.planes.lent(), self.journal.entries_mut());
        let answer = boundary::set(&mut self.settings, &pictures, planes, journal, view as u32, block, tried);
        assert_eq!(answer, Err(Refusal::JournalFull));
        self.compare();
        self.keep();
    }

    /// What is set stays, and the run goes on as one that begins here.
    fn keep(&mut self) {
        self.halted();
        lent::keep(self.journal.entries_mut());
        self.session.keep();
        self.copy = paper::with_newest(&self.copy, 0);
        self.opening = self.record.clone();
        self.standing.clear();
        self.compare();
    }

    /// MOVE by both, and now and then through the library's symbol: everything is drawn anew over the record, the settings are the
    /// new ones, and no SET stands any more.
    fn move_seat(&mut self, random: &mut Random) {
        self.halted();
        let (to, reference) = (random::seat(random, &self.settings), self.scene.any_reference(random));
        let pictures = self.scene.pictures_with(&reference);
        let (planes, journal) = (&mut self.planes.lent(), self.journal.entries_mut());
        let call = if random.once_in(2) { lent::move_seat } else { boundary::move_seat };
        assert_eq!(call(&mut self.settings, &pictures, planes, journal, &to), Ok(()));
        assert_eq!(self.session.move_seat(&to, &reference), Ok(()));
        (self.scene.settings, self.scene.reference) = (paper::moved(&self.scene.settings, &to), reference);
        self.copy = paper::with_newest(&self.copy, 0);
        self.opening = self.record.clone();
        self.standing.clear();
        self.fresh = self.drawing(&self.record);
        assert_eq!(self.session.pictures().reference, self.scene.reference);
        self.compare();
        self.halted();
    }

    /// A MOVE that meets a condition of its list: it is refused and all stays. A `Session` has its own size and journal.
    fn refused_move(&mut self, random: &mut Random) {
        let (to, reference) = (random::seat(random, &self.settings), self.scene.any_reference(random));
        let passed = Move { settings: self.settings, to, reference, journal: self.journal.clone() }.refused(random);
        let Move { settings, to, reference, journal } = passed.clone();
        let pictures = self.scene.pictures_with(&reference);
        let number = paper::move_number(&settings, &to, &pictures, &self.planes.shared(), journal.entries());
        let refusal = Refusal::from_number(number).expect("MOVE is to be refused");
        for call in [lent::move_seat, boundary::move_seat] {
            let Move { mut settings, mut journal, .. } = passed.clone();
            assert_eq!(call(&mut settings, &pictures, &mut self.planes.lent(), journal.entries_mut(), &to), Err(refusal));
            assert!(settings == passed.settings && journal == passed.journal, "a refused MOVE wrote");
        }
        let own = paper::move_number(&self.settings, &to, &pictures, &self.planes.shared(), &[0]);
        if let Some(refusal) = Refusal::from_number(own) {
            assert_eq!(self.session.move_seat(&to, &reference), Err(refusal));
            assert_eq!(self.session.pictures().reference, self.scene.reference);
        }
        self.compare();
    }

    /// TAKE BACK by both: the newest SET that stands is undone and its change comes back negated; 12 where none stands.
    fn take_back(&mut self) {
        let (pictures, planes, journal) = (self.scene.pictures(), &mut self.planes.lent(), self.journal.entries_mut());
        let Some(Standing { view, block, change, before, .. }) = self.standing.pop() else {
            let refusal = Err(Refusal::NothingToTakeBack);
            assert_eq!(boundary::take_back(&mut self.settings, &pictures, planes, journal), refusal);
            assert_eq!(lent::take_back(&mut self.settings, &pictures, planes, journal), refusal);
            assert_eq!(self.session.take_back(), refusal);
            return self.compare();
        };
        assert_eq!(lent::take_back(&mut self.settings, &pictures, planes, journal), Ok(-change));
        assert_eq!(self.session.take_back(), Ok(-change));
        let record = paper::newest(&self.settings, &self.copy);
        assert_eq!((record.view, record.block), (view as u32, block));
        let depths = paper::written(&self.settings, self.record(), view as usize, block, Candidate::Full(&record.depths));
        let fresh = self.drawing(&depths);
        assert!(fresh == before, "the record does not hold what was there");
        self.copy = paper::with_newest(&self.copy, record.before);
        let after = (std::mem::replace(&mut self.record, depths), std::mem::replace(&mut self.fresh, fresh));
        self.compare();
        self.compare_span(view as usize, block, &after.0, &after.1);
    }

    /// A run is judged by the SETs that stand: the depths are those it began with, and these SETs written in turn. It equals a
    /// fresh OPEN with the settings and the reference of the last accepted MOVE.
    fn halted(&self) {
        let mut depths = self.opening.clone();
        for Standing { view, block, depths: full, .. } in &self.standing {
            depths = paper::written(&self.settings, [&depths[0], &depths[1]], *view as usize, *block, Candidate::Full(full));
        }
        assert!(depths == self.record, "the SETs that stand make other depths");
        let fresh = self.drawing(&depths);
        assert!(fresh == self.fresh);
        let sum: i64 = self.standing.iter().map(|set| set.change).sum();
        assert_eq!(self.drawing(&self.opening).total as i64 + sum, self.settings.total as i64);
        assert_eq!(paper::chain(&self.settings, &self.copy).map(|records| records.len()), Some(self.standing.len()));
        let open = Session::open(&self.scene.settings, &self.scene.pictures(), self.record()).expect("OPEN accepts it");
        assert_eq!(*open.settings(), self.settings);
        self.compare_planes(&open.planes());
    }

    /// A SET shows in the spans of the block's rows only, moves limits of columns up to the block's last only, and leaves
    /// the other view alone.
    fn compare_span(&self, v: usize, block: Block, depths: &[Vec<u8>; 2], before: &Drawing) {
        let (w, h) = (self.settings.w as usize, self.settings.h as usize);
        let (held, other) = (self.planes.shared(), 1 - v);
        assert_eq!(held.samples[other], before.samples[other]);
        assert_eq!(held.fronts[other], before.fronts[other]);
        assert_eq!(held.limits[other], before.limits[other]);
        assert_eq!(held.marks[other], before.marks[other]);
        for y in 0..h {
            let edited = (block.row as usize..(block.row + block.height) as usize).contains(&y);
            let span = edited.then(|| paper::span(&self.settings, v, block, &depths[v], &self.record[v], y));
            for x in 0..w {
                let at = y * w + x;
                let shown = span.as_ref().is_some_and(|span| span.shown[x]);
                let moves = span.as_ref().is_some_and(|span| span.limits[x]);
                let same = held.samples[v][at] == before.samples[v][at]
                    && held.fronts[v][at] == before.fronts[v][at]
                    && held.combined[at] == before.combined[at]
                    && paper::mark(&self.settings, held.marks[v], y, x) == paper::mark(&self.settings, &before.marks[v], y, x);
                assert!(same || shown, "row {y}, column {x} changed outside the span");
                assert!(held.limits[v][at] == before.limits[v][at] || moves, "limit at row {y}, column {x} changed");
            }
        }
    }

    /// A call of a run that meets 5, 6, 7, 14 or 15: it is refused and all stays. Kinds that are unknown can be passed through
    /// the library's symbols only.
    fn refused(&mut self, view: u32, block: Block, tried: &Tried) {
        let (pictures, planes) = (self.scene.pictures(), self.planes.shared());
        let number = paper::call_number(&self.settings, &pictures, &planes, view, block, tried.candidate());
        let refusal = Refusal::from_number(number).expect("the call is to be refused");
        assert_eq!(boundary::get(&self.settings, &pictures, &planes, view, block, tried), Err(refusal));
        let journal = self.journal.entries_mut();
        assert_eq!(boundary::set(&mut self.settings, &pictures, &mut self.planes.lent(), journal, view, block, tried), Err(refusal));
        if let Some(candidate) = tried.known() {
            assert_eq!(lent::get(&self.settings, &pictures, &self.planes.shared(), view, block, candidate), Err(refusal));
            assert_eq!(lent::set(&mut self.settings, &pictures, &mut self.planes.lent(), journal, view, block, candidate), Err(refusal));
            if let Some(view) = View::BOTH.into_iter().find(|v| *v as u32 == view) {
                assert_eq!(self.session.get(view, block, candidate), Err(refusal));
                assert_eq!(self.session.set(view, block, candidate), Err(refusal));
            }
        }
        self.compare();
    }

    fn any_edit(&self, random: &mut Random) -> (View, Block, Tried) {
        random::edit(random, &self.settings, self.record())
    }

    /// Several candidates for one block: the best is set, or all are dropped.
    fn tried(&mut self, random: &mut Random) {
        let (view, block, mut best) = self.any_edit(random);
        let mut least = self.get(view, block, &best);
        for _ in 0..random.between(1, 5) {
            let candidate = random::candidate(random, self.settings.w as usize, &self.record[view as usize], block);
            let change = self.get(view, block, &candidate);
            if change < least {
                (least, best) = (change, candidate);
            }
        }
        if random.once_in(2) {
            assert_eq!(self.set(random, view, block, &best), least);
        }
    }

    /// A SET undone by a SET of the depths that were there.
    fn set_back(&mut self, random: &mut Random) {
        let (view, block, candidate) = self.any_edit(random);
        let before = self.fresh.clone();
        let old = random::full(&paper::depths_of(&self.settings, &self.record[view as usize], block));
        assert_eq!(self.set(random, view, block, &old), 0);
        let change = self.set(random, view, block, &candidate);
        assert_eq!(self.set(random, view, block, &old), -change);
        assert_eq!(self.fresh, before);
    }

    fn any_refused(&mut self, random: &mut Random) {
        let (view, block, tried) = random::refused_edit(random, &self.settings, self.record());
        self.refused(view, block, &tried);
    }

    fn call(&mut self, random: &mut Random) {
        match random.between(0, 17) {
            0..=2 => {
                let (view, block, candidate) = self.any_edit(random);
                self.get(view, block, &candidate);
            }
            3..=6 => {
                let (view, block, candidate) = self.any_edit(random);
                self.set(random, view, block, &candidate);
            }
            7 | 8 => self.tried(random),
            9 => self.set_back(random),
            10 | 11 => self.take_back(),
            12 => (0..random.between(1, 4)).for_each(|_| self.take_back()),
            13 if random.once_in(3) => self.keep(),
            14 | 15 => self.move_seat(random),
            16 => self.refused_move(random),
            _ => self.any_refused(random),
        }
    }

    /// CHECK and HOLES over planes that are not those of a session: the first difference, and the marks below w.
    fn damaged(&self, random: &mut Random) {
        let (mut planes, mut settings) = (self.planes.clone(), self.settings);
        for _ in 0..random.between(1, 3) {
            damage(random, &mut planes, &mut settings);
        }
        let report = paper::report(&settings, &self.fresh, &planes.shared());
        assert_eq!(lent::check(&settings, &self.scene.pictures(), &planes.shared()), Ok(report));
        for v in 0..2 {
            let marks = planes.shared().marks;
            assert_eq!(lent::holes(&settings, v, marks), Ok(paper::holes(&settings, marks[v as usize])));
        }
    }

    /// RENDER of one row of each view; h, share and tolerance play no part in it.
    fn rendered(&self, random: &mut Random) {
        let w = self.settings.w as usize;
        let y = random.between(0, self.settings.h as usize - 1);
        let settings = Settings { h: random.pick(&[0, 1, u32::MAX]), share: random.byte(), tolerance: random.byte(), ..self.settings };
        for view in View::BOTH {
            let texture = &self.scene.textures[view as usize][y * w..(y + 1) * w];
            let depths = &self.record[view as usize][y * w..(y + 1) * w];
            let drawn = paper::drawn_row(&settings, view as usize, texture, depths);
            let mut samples = Guarded::new(&random.entries(w), 0x5a5a);
            let mut bytes = [paper::mark_bytes(w), w].map(|n| Guarded::new(&random.bytes(n), 0x5a));
            let [marks, fronts] = bytes.each_mut().map(Guarded::entries_mut);
            assert_eq!(lent::render(&settings, view as u32, texture, depths, samples.entries_mut(), marks, fronts), Ok(()));
            assert!(samples.is_intact() && bytes.iter().all(Guarded::is_intact), "a guard was written");
            let row = luphwezane::render(&settings, view, texture, depths).expect("RENDER accepts it too");
            let (samples, [marks, fronts]) = (samples.entries(), bytes.each_ref().map(Guarded::entries));
            assert_eq!((samples, marks, fronts), (&row.samples[..], &row.marks[..], &row.fronts[..]));
            assert_eq!(samples, drawn.pixels.iter().map(|x| x.sample).collect::<Vec<_>>());
            assert_eq!(marks, paper::packed(drawn.pixels.iter().map(|x| x.mark)));
            assert_eq!(fronts, drawn.pixels.iter().map(|x| x.front).collect::<Vec<_>>());
        }
    }
}

/// One held entry, or the total, made different.
fn damage(random: &mut Random, planes: &mut GuardedPlanes, settings: &mut Settings) {
    let v = random.between(0, 1);
    match random.between(0, 6) {
        0 => settings.total = settings.total.wrapping_add(random.next()),
        1 => *any(random, &mut planes.limits[v]) ^= 1 << random.between(0, 15),
        2 => *any(random, &mut planes.samples[v]) ^= 1 << random.between(0, 15),
        3 => *any(random, &mut planes.fronts[v]) ^= 1 << random.between(0, 7),
        4 => *any(random, &mut planes.combined) ^= 1 << random.between(0, 15),
        _ => *any(random, &mut planes.marks[v]) ^= 1 << random.between(0, 7),
    }
}

fn any<'a, T: Copy + PartialEq>(random: &mut Random, plane: &'a mut Guarded<T>) -> &'a mut T {
    let entries = plane.entries_mut();
    &mut entries[random.between(0, entries.len() - 1)]
}

/// OPEN of pictures of which one has a higher entry, or with a journal of no words, with perhaps something before it that is
/// refused: nothing is written. A `Session` has a journal of its own.
fn refused_open(random: &mut Random, scene: &Scene) {
    let (w, h) = (scene.settings.w as usize, scene.settings.h as usize);
    let mut settings = scene.settings;
    let mut pictures = [&scene.textures[0], &scene.textures[1], &scene.reference].map(Vec::clone);
    pictures[random.between(0, 2)][random.between(0, w * h - 1)] = random.high();
    match random.between(0, 9) {
        0..=2 => random::spoil_seat(random, &mut settings),
        3 => drop(pictures[random.between(0, 2)].pop()),
        4 => settings.h = 4097,
        _ => (),
    }
    let pictures = Pictures { textures: [&pictures[0], &pictures[1]], reference: &pictures[2] };
    let mut planes = GuardedPlanes::new(random, w, h, scene.depths());
    let mut journal = if random.once_in(4) { Guarded::new(&[], 7) } else { random::journal(random, w * h) };
    let number = |journal: &[u32]| Refusal::from_number(paper::open_number(&settings, &pictures, &planes.shared(), journal));
    let refusal = number(journal.entries()).expect("OPEN is to be refused");
    let own = number(&[0]).expect("OPEN is to be refused");
    assert_eq!(Session::open(&settings, &pictures, scene.depths()).map(|_| ()), Err(own));
    let before = (settings, planes.clone(), journal.clone());
    assert_eq!(lent::open(&mut settings, &pictures, &mut planes.lent(), journal.entries_mut()), Err(refusal));
    assert!((settings, planes, journal) == before, "a refused OPEN wrote");
}

/// What random candidates are: kind and number, and of lines how many ends are corners, which ends of a refused one are inside
/// the block or outside it, and whether the block has one column or row.
#[test]
fn random_candidates_are_of_every_kind() {
    let (random, mut reached) = (&mut Random::new(1, 0), BTreeSet::new());
    for _ in 0..20_000 {
        let (w, h) = (random.between(1, 9), random.between(1, 9));
        let (depths, block) = (random.bytes(w * h), random::block(random, w, h));
        let taken = random::candidate(random, w, &depths, block);
        assert_eq!(paper::candidate_number(block, taken.candidate()), 0, "{taken:?} in {block:?}");
        let refused = random::refused_candidate(random, w, &depths, block);
        assert_ne!(paper::candidate_number(block, refused.candidate()), 0, "{refused:?} in {block:?}");
        for tried in [taken, refused] {
            let number = paper::candidate_number(block, tried.candidate());
            let sides = [tried.start, tried.end].map(|point| paper::sides(block, point).iter().filter(|on| **on).count());
            let within = [tried.start, tried.end].map(|point| point.column < block.width && point.row < block.height);
            let what = match tried.kind {
                2 if number == 0 => format!("line, {} corners", sides.iter().filter(|&&count| count == 2).count()),
                2 if block.width == 1 || block.height == 1 => "line in one column or row".to_string(),
                2 if within == [true, true] && sides.iter().all(|&count| count > 0) => "line on one side".to_string(),
                2 => format!("line, within {within:?}"),
                kind => format!("kind {}", kind.min(4)),
            };
            reached.insert((number, what));
        }
    }
    let expected = [
        (0, "kind 0"),
        (0, "kind 1"),
        (0, "kind 3"),
        (0, "line, 0 corners"),
        (0, "line, 1 corners"),
        (0, "line, 2 corners"),
        (7, "kind 0"),
        (7, "kind 4"),
        (14, "line in one column or row"),
        (14, "line on one side"),
        (14, "line, within [false, false]"),
        (14, "line, within [false, true]"),
        (14, "line, within [true, false]"),
        (14, "line, within [true, true]"),
        (15, "kind 3"),
    ];
    assert_eq!(reached, expected.map(|(number, what)| (number, what.to_string())).into());
}

/// MOVEs that are refused meet every number that MOVE has, and 20 by either of its numbers.
#[test]
fn refused_moves_reach_every_number() {
    let (random, mut reached) = (&mut Random::new(1, 0), BTreeSet::new());
    for turn in 0..3000 {
        let (w, h) = (random.between(1, 9), random.between(1, 5));
        let scene = Scene::sized(random, w, h, turn);
        let planes = GuardedPlanes::new(random, w, h, scene.depths());
        let (to, reference, journal) = (random::seat(random, &scene.settings), scene.any_reference(random), Guarded::new(&[0], 7));
        let number = |passed: &Move| {
            let pictures = scene.pictures_with(&passed.reference);
            let Move { settings, to, journal, .. } = passed;
            paper::move_number(settings, to, &pictures, &planes.shared(), journal.entries())
        };
        let passed = Move { settings: scene.settings, to, reference, journal };
        assert_eq!(number(&passed), 0);
        let refused = passed.refused(random);
        reached.insert((number(&refused), (4..=64).contains(&refused.to.widest_gap)));
    }
    for refused in [(1, true), (2, true), (3, true), (4, true), (20, true), (20, false), (13, true), (21, true)] {
        assert!(reached.contains(&refused), "{refused:?}");
    }
    assert!(!reached.iter().any(|&(number, _)| number == 0));
}

/// Shares, tolerances, widest gaps and torn distances take all their values in turn.
#[test]
fn random_sessions() {
    random::sessions("sessions", 6000, |random, number| {
        let scene = Scene::new(random, number);
        let calls = if scene.reference.len() < 2000 { random.between(2, 16) } else { 3 };
        refused_open(random, &scene);
        let mut run = Run::open(random, scene);
        run.rendered(random);
        for _ in 0..calls {
            run.call(random);
        }
        run.halted();
        run.rendered(random);
        run.damaged(random);
    });
}
