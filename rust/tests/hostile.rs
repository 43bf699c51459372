//! Calls that no careful caller makes: wrong lengths, numbers and kinds, several at once, planes full of garbage, damaged
//! journals, and samples above 1,023.
//!
//! Every call ends, is refused exactly with the first number of its list, writes nothing where it is refused and nothing
//! outside its planes and its journal ever. A longer run:
//!
//!     LUPH_SEED=7 LUPH_SESSIONS=100000 cargo test --release --offline --test hostile

mod boundary;
mod paper;
mod random;

use luphwezane::{lent, Block, Pictures, Planes, PlanesMut, Refusal, Report, Settings, GREATEST_SAMPLE};
use paper::Drawing;
use random::{Guarded, GuardedPlanes, Random, Scene, Tried};
use std::collections::BTreeSet;

/// All that a call is passed.
#[derive(Clone, PartialEq, Debug)]
struct Call {
    settings: Settings,
    textures: [Guarded<u16>; 2],
    reference: Guarded<u16>,
    planes: GuardedPlanes,
    journal: Guarded<u32>,
    view: u32,
    block: Block,
    candidate: Tried,
    /// Where MOVE goes; the reference is the new one then.
    to: Settings,
}

impl Call {
    /// A call that is accepted, on a session with few SETs that stand; the journal has room for one more.
    fn accepted(random: &mut Random) -> Call {
        let widest = if random.once_in(200) { 600 } else { random.pick(&[9, 9, 9, 9, 40, 40, 40, 40, 40, 140]) };
        let (w, h) = (random.between(1, widest), random.between(1, 6));
        let turn = random.next();
        let scene = Scene::sized(random, w, h, turn);
        let mut settings = scene.settings;
        let (mut planes, mut journal) = (GuardedPlanes::new(random, w, h, scene.depths()), random::journal(random, w * h));
        lent::open(&mut settings, &scene.pictures(), &mut planes.lent(), journal.entries_mut()).expect("OPEN accepts it");
        let mut call = Call {
            settings,
            textures: scene.textures.each_ref().map(|plane| Guarded::new(plane, 0x3c3c)),
            reference: Guarded::new(&scene.reference, 0x3c3c),
            planes,
            journal,
            view: 0,
            block: Block { column: 0, row: 0, width: 1, height: 1 },
            candidate: random::full(&[0]),
            to: random::seat(random, &settings),
        };
        call.another(random);
        for _ in 0..random.between(0, 3) {
            if paper::journal_number(&call.settings, call.journal.entries(), call.block) == 0 {
                call.set().expect("SET accepts it");
            }
            call.another(random);
        }
        let next = call.journal.entries().len() + 6 + (call.block.width * call.block.height) as usize;
        call.journal = call.journal.resized(next);
        call
    }

    /// Another view, block and candidate.
    fn another(&mut self, random: &mut Random) {
        self.view = random.between(0, 1) as u32;
        let depths = self.planes.shared().depths[self.view as usize];
        self.block = random::edited_block(random, &self.settings, self.view as usize, depths);
        self.candidate = random::candidate(random, self.settings.w as usize, depths, self.block);
    }

    fn pictures(&self) -> Pictures<'_> {
        let [left, right] = &self.textures;
        Pictures { textures: [left.entries(), right.entries()], reference: self.reference.entries() }
    }

    /// Numbers of GET's list, and of SET's, but 8 and what SET has after it.
    fn number(&self) -> u32 {
        paper::call_number(&self.settings, &self.pictures(), &self.planes.shared(), self.view, self.block, self.candidate.candidate())
    }

    fn common_number(&self) -> u32 {
        paper::common_number(&self.settings, &self.pictures(), &self.planes.shared())
    }

    /// GET through the library's symbol, and through the crate where the kind is known: both answer alike.
    fn get(&self) -> Result<i64, Refusal> {
        let (pictures, planes) = (self.pictures(), self.planes.shared());
        let answer = boundary::get(&self.settings, &pictures, &planes, self.view, self.block, &self.candidate);
        if let Some(candidate) = self.candidate.known() {
            assert_eq!(lent::get(&self.settings, &pictures, &planes, self.view, self.block, candidate), answer);
        }
        answer
    }

    fn set(&mut self) -> Result<i64, Refusal> {
        let Call { settings, textures: [left, right], reference, planes, journal, view, block, candidate, .. } = self;
        let pictures = Pictures { textures: [left.entries(), right.entries()], reference: reference.entries() };
        let (planes, journal) = (&mut planes.lent(), journal.entries_mut());
        match candidate.known() {
            Some(candidate) => lent::set(settings, &pictures, planes, journal, *view, *block, candidate),
            None => boundary::set(settings, &pictures, planes, journal, *view, *block, candidate),
        }
    }

    /// What SET has after 8.
    fn journal_number(&self) -> u32 {
        paper::journal_number(&self.settings, self.journal.entries(), self.block)
    }

    /// TAKE BACK through the crate, and through the library's symbol: both answer alike.
    fn take_back(&mut self) -> Result<i64, Refusal> {
        let mut same = self.clone();
        let [answer, other] = [&mut *self, &mut same].map(|call| {
            let Call { settings, textures: [left, right], reference, planes, journal, .. } = call;
            let pictures = Pictures { textures: [left.entries(), right.entries()], reference: reference.entries() };
            (settings, pictures, planes, journal)
        });
        let answer = lent::take_back(answer.0, &answer.1, &mut answer.2.lent(), answer.3.entries_mut());
        assert_eq!(boundary::take_back(other.0, &other.1, &mut other.2.lent(), other.3.entries_mut()), answer);
        assert!(*self == same, "TAKE BACK ends otherwise");
        answer
    }

    /// MOVE through the crate, and through the library's symbol: both answer and end alike.
    fn move_seat(&mut self) -> Result<(), Refusal> {
        let mut same = self.clone();
        let answer = self.moved_by(lent::move_seat);
        assert_eq!(same.moved_by(boundary::move_seat), answer);
        assert!(*self == same, "MOVE ends otherwise");
        answer
    }

    fn moved_by<T>(&mut self, call: impl Fn(&mut Settings, &Pictures, &mut PlanesMut, &mut [u32], &Settings) -> T) -> T {
        let Call { settings, textures: [left, right], reference, planes, journal, to, .. } = self;
        let pictures = Pictures { textures: [left.entries(), right.entries()], reference: reference.entries() };
        call(settings, &pictures, &mut planes.lent(), journal.entries_mut(), to)
    }

    /// Numbers of MOVE's list.
    fn move_number(&self) -> u32 {
        paper::move_number(&self.settings, &self.to, &self.pictures(), &self.planes.shared(), self.journal.entries())
    }

    /// Numbers of TAKE BACK's list but 8.
    fn take_back_number(&self) -> u32 {
        paper::take_back_number(&self.settings, &self.pictures(), &self.planes.shared(), self.journal.entries())
    }

    /// The SET that TAKE BACK of the newest record is like, with a journal of its own.
    fn set_of_newest(&self) -> Call {
        let paper::Record { view, block, depths, .. } = paper::newest(&self.settings, self.journal.entries());
        let journal = Guarded::new(&vec![0; 1 + 6 + depths.len()], 7);
        Call { view, block, candidate: random::full(&depths), journal, ..self.clone() }
    }

    /// The same call with the candidate as a full block; nothing where the candidate is refused.
    fn as_full(&self) -> Option<Call> {
        let taken = self.number() == 0;
        taken.then(|| Call { candidate: self.candidate.as_full(self.block), ..self.clone() })
    }

    fn open(&mut self) -> Result<(), Refusal> {
        let [left, right] = &self.textures;
        let pictures = Pictures { textures: [left.entries(), right.entries()], reference: self.reference.entries() };
        lent::open(&mut self.settings, &pictures, &mut self.planes.lent(), self.journal.entries_mut())
    }

    /// The same call with the total of its planes.
    fn opened(mut self) -> Call {
        self.open().expect("OPEN accepts it");
        self
    }

    fn check(&self) -> Result<Report, Refusal> {
        lent::check(&self.settings, &self.pictures(), &self.planes.shared())
    }

    fn holes(&self) -> Result<u64, Refusal> {
        lent::holes(&self.settings, self.view, self.planes.shared().marks)
    }

    /// The fresh drawing of the depths as they stand.
    fn drawing(&self) -> Drawing {
        paper::drawing(&self.settings, &self.pictures(), self.planes.shared().depths)
    }

    fn pictures_mut(&mut self) -> [&mut [u16]; 3] {
        let [left, right] = self.textures.each_mut().map(Guarded::entries_mut);
        [left, right, self.reference.entries_mut()]
    }

    fn samples_mut(&mut self) -> [&mut [u16]; 3] {
        let [left, right] = self.planes.samples.each_mut().map(Guarded::entries_mut);
        [left, right, self.planes.combined.entries_mut()]
    }

    /// The same call with every sample as GET and SET read it.
    fn read(&self) -> Call {
        let mut call = self.clone();
        call.pictures_mut().into_iter().flatten().for_each(|entry| *entry = paper::read(*entry));
        call.samples_mut().into_iter().flatten().for_each(|entry| *entry = paper::read(*entry));
        call
    }

    /// One thing made wrong, or at least different.
    fn spoil(&mut self, random: &mut Random) {
        match random.between(0, 25) {
            0 => self.settings.w = random.pick(&[0, 4097, self.settings.w.wrapping_add(65536), u32::MAX]),
            1 => self.settings.h = random.pick(&[0, 4097, self.settings.h.wrapping_add(65536), u32::MAX]),
            2 => std::mem::swap(&mut self.settings.w, &mut self.settings.h),
            3..=5 => self.spoil_length(random),
            6 => {
                let table = if random.once_in(2) { &mut self.settings.left } else { &mut self.settings.right };
                table[random.pick(&[0, 1, 127, 254, 255])] = random.pick(&[1023, 1024, 1025, 32768, 65535]);
            }
            7 => self.settings.share = random.pick(&[64, 65, 66, 128, 255]),
            8 => self.view = random.pick(&[0, 1, 2, 3, 256, 1 << 31, u32::MAX]),
            9 => {
                let number = match random.between(0, 3) {
                    0 => &mut self.block.column,
                    1 => &mut self.block.row,
                    2 => &mut self.block.width,
                    _ => &mut self.block.height,
                };
                *number = random.pick(&[0, 1, 4096, 65536, u32::MAX - 1, u32::MAX, 0u32.wrapping_sub(*number)]);
            }
            10 => self.candidate.bytes = resized(random, &self.candidate.bytes),
            11 => self.candidate.kind = random::kind(random),
            12 => {
                self.candidate.kind = 2;
                (self.candidate.start, self.candidate.end) = random::refused_line(random, self.block);
            }
            13 => {
                let picture = &mut self.pictures_mut()[random.between(0, 2)];
                if let Some(last) = picture.len().checked_sub(1) {
                    picture[random.between(0, last)] = random.high();
                }
            }
            14..=16 => random::damage_journal(random, &self.settings, self.journal.entries_mut()),
            17 => self.journal = resized(random, &self.journal),
            18 => self.journal = self.journal.resized(self.journal.entries().len().saturating_sub(random.between(1, 20))),
            19 => self.settings.widest_gap = random.pick(&[0, 3, 4, 8, 64, 65, 128, 255]),
            20 => self.settings.torn_distance = random.pick(&[0, 3, 4, 255]),
            21 => random::spoil_seat(random, &mut self.settings),
            22..=24 => random::spoil_seat(random, &mut self.to),
            _ => self.settings.total = random.next() >> random.between(0, 63),
        }
    }

    fn spoil_length(&mut self, random: &mut Random) {
        let v = random.between(0, 1);
        let planes = &mut self.planes;
        match random.between(0, 7) {
            0 => self.textures[v] = resized(random, &self.textures[v]),
            1 => self.reference = resized(random, &self.reference),
            2 => planes.depths[v] = resized(random, &planes.depths[v]),
            3 => planes.samples[v] = resized(random, &planes.samples[v]),
            4 => planes.fronts[v] = resized(random, &planes.fronts[v]),
            5 => planes.marks[v] = resized(random, &planes.marks[v]),
            6 => planes.combined = resized(random, &planes.combined),
            _ => planes.limits[v] = resized(random, &planes.limits[v]),
        }
    }
}

/// The same entries, fewer or more of them.
fn resized<T: Copy + PartialEq + Default>(random: &mut Random, plane: &Guarded<T>) -> Guarded<T> {
    let n = plane.entries().len();
    plane.resized(random.pick(&[0, n.saturating_sub(1), n + 1, n + 8, 2 * n]))
}

fn refusal(number: u32) -> Refusal {
    Refusal::from_number(number).expect("a refusal's number")
}

/// The answer of a call whose planes may be those of no session: its first number but 8, else some change or 8; where it would
/// be refused with `last` after 8, no change.
fn answered(settings: &Settings, number: u32, last: u32, answer: Result<i64, Refusal>) {
    match (number, answer) {
        (0, Ok(change)) => {
            assert_eq!(last, 0, "the call is to be refused");
            assert!(paper::total_is_taken(settings, change), "change {change} takes the total out of range");
        }
        (0, Err(other)) => assert!(other == Refusal::Total || other.number() == last, "{other}"),
        (number, _) => assert_eq!(answer, Err(refusal(number))),
    }
}

/// GET, then SET, of a call whose planes may be those of no session: both answer as where every sample is what they read, and as
/// for the full block that the candidate fills.
fn edit(call: &mut Call) {
    let (before, mut read, full) = (call.clone(), call.read(), call.as_full());
    answered(&call.settings, call.number(), 0, call.get());
    assert_eq!(call.get(), read.get());
    assert!(*call == before, "GET wrote");
    let answer = call.set();
    answered(&before.settings, before.number(), if before.number() == 0 { before.journal_number() } else { 0 }, answer);
    assert_eq!(answer, read.set());
    assert!(call.planes.are_intact() && call.journal.is_intact(), "a guard was written");
    if let Some(mut full) = full {
        assert_eq!((full.get(), full.set()), (before.get(), answer));
        assert!((full.settings, &full.planes) == (call.settings, &call.planes), "SET of the full block ends otherwise");
        assert!(full.journal == call.journal, "SET of the full block saves otherwise");
    }
    match answer {
        Err(_) => assert!(*call == before, "a refused SET wrote"),
        Ok(change) => {
            compare_any(&before, call, change);
            compare_read(&before, call, &read);
            let depths = before.planes.shared().depths;
            let saved = paper::saved(&before.settings, before.journal.entries(), depths, before.view as usize, before.block);
            assert!(call.journal.entries() == saved, "SET saves otherwise");
        }
    }
}

/// TAKE BACK of a call whose planes may be those of no session: it answers and ends as a SET of the newest record's depths, but
/// for the journal, of which it writes word 0 alone.
fn taken_back(mut call: Call) {
    let (before, mut read) = (call.clone(), call.read());
    let answer = call.take_back();
    answered(&before.settings, before.take_back_number(), 0, answer);
    assert_eq!(answer, read.take_back());
    assert!(call.planes.are_intact() && call.journal.is_intact(), "a guard was written");
    if before.take_back_number() == 0 {
        let (start, mut set) = (before.set_of_newest(), before.set_of_newest());
        assert_eq!(set.set(), answer);
        assert!((set.settings, &set.planes) == (call.settings, &call.planes), "the SET ends otherwise");
        if let Ok(change) = answer {
            compare_any(&start, &set, change);
            compare_read(&before, &call, &read);
            let record = paper::newest(&before.settings, before.journal.entries());
            assert!(call.journal.entries() == paper::with_newest(before.journal.entries(), record.before));
        }
    }
    if answer.is_err() {
        assert!(call == before, "a refused TAKE BACK wrote");
    }
}

/// The planes after a SET, and after the SET in which every sample was what is read: what SET writes is the same, and a sample
/// that it does not write stays as it is.
fn compare_read(before: &Call, after: &Call, read: &Call) {
    let (old, new, read) = (before.planes.shared(), after.planes.shared(), read.planes.shared());
    assert_eq!((new.fronts, new.limits, new.marks), (read.fronts, read.limits, read.marks));
    let samples = |planes: &Planes| [planes.samples[0], planes.samples[1], planes.combined].concat();
    for ((old, new), read) in samples(&old).into_iter().zip(samples(&new)).zip(samples(&read)) {
        assert!(new == read || new == old && read == paper::read(old), "{old} became {new}, and {read} where it was read");
    }
}

/// What holds of an accepted SET whatever the planes hold: the depths, the total, the rows outside the block and the
/// other view's planes; no sample above 1,023 is written, and limits past the block's last column and spare bits stay.
fn compare_any(before: &Call, after: &Call, change: i64) {
    let Call { settings, view, block, .. } = before;
    let (v, w) = (*view as usize, settings.w as usize);
    let total = (i128::from(settings.total) + i128::from(change)) as u64;
    assert_eq!(after.settings, Settings { total, ..*settings });
    let (old, new) = (before.planes.shared(), after.planes.shared());
    assert_eq!(new.depths, paper::written(settings, old.depths, v, *block, before.candidate.candidate()));
    let other = 1 - v;
    assert_eq!(new.samples[other], old.samples[other]);
    assert_eq!(new.fronts[other], old.fronts[other]);
    assert_eq!(new.limits[other], old.limits[other]);
    assert_eq!(new.marks[other], old.marks[other]);
    for y in (0..settings.h).filter(|y| !(block.row..block.row + block.height).contains(y)) {
        let (row, bytes) = (y as usize * w..(y as usize + 1) * w, paper::mark_bytes(w));
        let packed = y as usize * bytes..(y as usize + 1) * bytes;
        assert_eq!(new.samples[v][row.clone()], old.samples[v][row.clone()]);
        assert_eq!(new.fronts[v][row.clone()], old.fronts[v][row.clone()]);
        assert_eq!(new.limits[v][row.clone()], old.limits[v][row.clone()]);
        assert_eq!(new.marks[v][packed.clone()], old.marks[v][packed]);
        assert_eq!(new.combined[row.clone()], old.combined[row]);
    }
    let samples = |planes: &Planes| [planes.samples[v], planes.combined].concat();
    for (old, new) in samples(&old).into_iter().zip(samples(&new)) {
        assert!(new == old || new <= GREATEST_SAMPLE, "{old} became {new}");
    }
    let past = if v == 1 { 0..block.column as usize } else { (block.column + block.width) as usize..w };
    for y in 0..settings.h as usize {
        let limits = y * w + past.start..y * w + past.end;
        assert_eq!(new.limits[v][limits.clone()], old.limits[v][limits]);
        if w % 8 > 0 {
            let last = y * paper::mark_bytes(w) + w / 8;
            assert_eq!(new.marks[v][last] >> (w % 8), old.marks[v][last] >> (w % 8));
        }
    }
}

/// CHECK and HOLES are decided for all planes.
fn questions(call: &Call) {
    let before = call.clone();
    let (report, count) = (call.check(), call.holes());
    assert!(*call == before, "CHECK or HOLES wrote");
    match call.common_number() {
        0 => assert_eq!(report, Ok(paper::report(&call.settings, &call.drawing(), &call.planes.shared()))),
        number => assert_eq!(report, Err(refusal(number))),
    }
    let marks = call.planes.shared().marks;
    match paper::holes_number(&call.settings, call.view, marks) {
        0 => assert_eq!(count, Ok(paper::holes(&call.settings, marks[call.view as usize]))),
        number => assert_eq!(count, Err(refusal(number))),
    }
}

/// OPEN is decided for all planes: it fills them, or leaves them.
fn opened(mut call: Call) {
    let before = call.clone();
    let opened = call.open();
    assert!(call.planes.are_intact() && call.journal.is_intact(), "a guard was written");
    match paper::open_number(&before.settings, &before.pictures(), &before.planes.shared(), before.journal.entries()) {
        0 => {
            assert_eq!(opened, Ok(()));
            assert_eq!(call.planes.depths, before.planes.depths);
            assert!(call.journal.entries() == paper::with_newest(before.journal.entries(), 0), "OPEN writes word 0 alone");
            assert_eq!(call.check(), Ok(Report::Sound));
        }
        number => {
            assert_eq!(opened, Err(refusal(number)));
            assert!(call == before, "a refused OPEN wrote");
        }
    }
}

/// MOVE is decided for all planes, by w and h of the settings and by what is new: it ends as OPEN with the new settings does, or
/// leaves everything. Nothing can be taken back then.
fn moved(mut call: Call) {
    let before = call.clone();
    let answer = call.move_seat();
    assert!(call.planes.are_intact() && call.journal.is_intact(), "a guard was written");
    match before.move_number() {
        0 => {
            assert_eq!(answer, Ok(()));
            let fresh = call.drawing();
            assert_eq!(call.settings, Settings { total: fresh.total, ..paper::moved(&before.settings, &before.to) });
            let held = call.planes.shared();
            assert_eq!(held.depths, before.planes.shared().depths);
            assert_eq!((held.samples, held.combined), (both(&fresh.samples), &fresh.combined[..]));
            assert_eq!((held.fronts, held.limits, held.marks), (both(&fresh.fronts), both(&fresh.limits), both(&fresh.marks)));
            assert!(call.journal.entries() == paper::with_newest(before.journal.entries(), 0), "MOVE writes word 0 alone");
            let mut opened = Call { settings: paper::moved(&before.settings, &before.to), ..before };
            assert_eq!(opened.open(), Ok(()));
            assert!(opened == call, "OPEN ends otherwise");
            assert_eq!(call.check(), Ok(Report::Sound));
            assert_eq!(call.take_back(), Err(Refusal::NothingToTakeBack));
        }
        number => {
            assert_eq!(answer, Err(refusal(number)));
            assert!(call == before, "a refused MOVE wrote");
        }
    }
}

/// RENDER of any texture, with some lengths and numbers wrong.
fn rendered(random: &mut Random, call: &Call) {
    let w = random.between(1, 40);
    let mut samples = [(); 2].map(|()| Guarded::new(&random.entries(w), 0x3c3c));
    let mut bytes = [w, paper::mark_bytes(w), w].map(|n| Guarded::new(&random.bytes(n), 0x3c));
    match random.between(0, 9) {
        at @ 0..=1 => samples[at] = resized(random, &samples[at]),
        at @ 2..=4 => bytes[at - 2] = resized(random, &bytes[at - 2]),
        _ => (),
    }
    let w = if random.once_in(4) { call.settings.w } else { w as u32 };
    let settings = Settings { w, ..call.settings };
    let before = (samples.clone(), bytes.clone());
    let ([texture, drawn], [depths, marks, fronts]) = (&mut samples, &mut bytes);
    let lens = [texture.entries().len(), depths.entries().len(), drawn.entries().len(), fronts.entries().len()];
    let number = paper::render_number(&settings, call.view, lens, marks.entries().len());
    let (texture, depths) = (texture.entries(), depths.entries());
    let answer = lent::render(&settings, call.view, texture, depths, drawn.entries_mut(), marks.entries_mut(), fronts.entries_mut());
    match number {
        0 => {
            assert_eq!(answer, Ok(()));
            let pixels = paper::drawn_row(&settings, call.view as usize, texture, depths).pixels;
            assert_eq!(drawn.entries(), pixels.iter().map(|x| x.sample).collect::<Vec<_>>());
            assert_eq!(marks.entries(), paper::packed(pixels.iter().map(|x| x.mark)));
            assert_eq!(fronts.entries(), pixels.iter().map(|x| x.front).collect::<Vec<_>>());
        }
        _ => {
            assert_eq!(answer, Err(refusal(number)));
            assert!((&samples, &bytes) == (&before.0, &before.1), "a refused RENDER wrote");
        }
    }
    assert!(samples.iter().all(Guarded::is_intact) && bytes.iter().all(Guarded::is_intact), "a guard was written");
}

#[test]
fn wrong_lengths_and_numbers() {
    random::sessions("wrong lengths and numbers", 6000, |random, _| {
        let mut call = Call::accepted(random);
        for _ in 0..random.between(1, 3) {
            call.spoil(random);
        }
        questions(&call);
        rendered(random, &call);
        opened(call.clone());
        moved(call.clone());
        taken_back(call.clone());
        edit(&mut call);
    });
}

/// What is spoilt of the session or of the seat leads to every number that MOVE has, and to those of the other calls.
#[test]
fn spoilt_calls_reach_every_number() {
    let (random, mut reached) = (&mut Random::new(1, 0), BTreeSet::new());
    for _ in 0..6000 {
        let mut call = Call::accepted(random);
        (0..random.between(1, 3)).for_each(|_| call.spoil(random));
        reached.insert(("MOVE", call.move_number()));
        reached.insert(("GET", call.number()));
        reached.insert(("CHECK", call.common_number()));
        reached.insert(("TAKE BACK", call.take_back_number()));
    }
    let lists: [(&str, &[u32]); 4] = [
        ("MOVE", &[0, 1, 2, 3, 4, 20, 13, 21]),
        ("GET", &[0, 1, 2, 3, 4, 20, 6, 5, 7, 14, 15]),
        ("CHECK", &[0, 1, 2, 3, 4, 20]),
        ("TAKE BACK", &[0, 1, 2, 3, 4, 20, 13, 12]),
    ];
    assert_eq!(reached, lists.into_iter().flat_map(|(call, list)| list.iter().map(move |&number| (call, number))).collect());
}

/// A call on planes of a session, with a journal that is damaged or too short by some words; one, mostly.
fn with_damaged_journal(random: &mut Random) -> Call {
    let mut call = Call::accepted(random);
    for _ in 0..random.between(1, 2) {
        match random.between(0, 5) {
            0 => call.journal = call.journal.resized(random.between(0, call.journal.entries().len())),
            1 => {
                let records = paper::chain(&call.settings, call.journal.entries()).unwrap_or_default();
                let end = paper::next_index(&records) + 6 + (call.block.width * call.block.height) as usize;
                call.journal = call.journal.resized(random.pick(&[end, end - 1, end - 1, end - 6]));
            }
            _ => random::damage_journal(random, &call.settings, call.journal.entries_mut()),
        }
    }
    call
}

/// On planes of a session SET and TAKE BACK are decided for all journals: the numbers of both, 0 where they accept.
fn by_journal(call: &Call) -> (u32, u32) {
    let number = |answer: Result<i64, Refusal>| answer.map_or_else(Refusal::number, |_| 0);
    let numbers = (call.journal_number(), call.take_back_number());
    assert_eq!((number(call.clone().set()), number(call.clone().take_back())), numbers);
    numbers
}

#[test]
fn damaged_journals() {
    random::sessions("damaged journals", 6000, |random, _| {
        let mut call = with_damaged_journal(random);
        by_journal(&call);
        taken_back(call.clone());
        edit(&mut call);
    });
}

/// Damage leads to every answer, and it can leave a journal that is taken.
#[test]
fn damaged_journals_reach_every_number() {
    let random = &mut Random::new(1, 0);
    let reached: BTreeSet<(u32, u32)> = (0..3000).map(|_| by_journal(&with_damaged_journal(random))).collect();
    assert_eq!(reached, [(0, 0), (0, 12), (11, 0), (11, 12), (13, 13)].into());
}

#[test]
fn garbage_planes() {
    random::sessions("garbage planes", 4000, |random, _| {
        let mut call = Call::accepted(random);
        let (w, h) = (call.settings.w as usize, call.settings.h as usize);
        if random.once_in(2) {
            let depths = call.planes.shared().depths.map(<[u8]>::to_vec);
            call.planes = GuardedPlanes::new(random, w, h, [&depths[0], &depths[1]]);
        } else {
            for _ in 0..random.between(1, 8) {
                let limits = call.planes.limits[random.between(0, 1)].entries_mut();
                limits[random.between(0, w * h - 1)] = random::garbage_limit(random);
            }
        }
        if random.once_in(2) {
            call.pictures_mut().into_iter().for_each(|picture| picture.copy_from_slice(&random.entries(w * h)));
        }
        call.settings.total = random.pick(&[0, call.settings.total, paper::WORST * (w * h) as u64 / 2, u64::MAX]);
        for _ in 0..4 {
            questions(&call);
            taken_back(call.clone());
            edit(&mut call);
            call.another(random);
        }
        moved(call.clone());
        opened(call);
    });
}

/// Some entries of 1,023 become something higher, which is read as 1,023; how many.
fn raise(random: &mut Random, planes: [&mut [u16]; 3]) -> usize {
    let mut raised = 0;
    for entry in planes.into_iter().flatten().filter(|entry| **entry == 1023) {
        if random.once_in(2) {
            *entry = random.high();
            raised += 1;
        }
    }
    raised
}

/// GET and SET of a session some of whose samples were raised, against fresh drawings: the change, the depths and the total
/// are the session's. A sample that SET writes is the fresh one. Outside the span each stays as it is, raised or not.
fn edit_raised(mut call: Call) {
    let before = call.clone();
    let (v, block, settings) = (call.view as usize, call.block, call.settings);
    let old = before.planes.shared();
    let depths = paper::written(&settings, old.depths, v, block, call.candidate.candidate());
    let fresh = paper::drawing(&settings, &call.pictures(), [&depths[0], &depths[1]]);
    let change = fresh.total as i64 - settings.total as i64;
    assert_eq!(call.get(), Ok(change));
    assert!(call == before, "GET wrote");
    assert_eq!(call.set(), Ok(change));
    assert!(call.planes.are_intact(), "a guard was written");
    assert_eq!(call.settings, Settings { total: fresh.total, ..settings });
    let mut back = call.clone();
    assert_eq!(back.take_back(), Ok(-change));
    assert_eq!((back.settings, back.planes.shared().depths), (settings, old.depths));
    let drawn = paper::drawing(&settings, &call.pictures(), old.depths);
    let held = back.planes.shared();
    assert_eq!((held.fronts, held.marks, held.limits), (both(&drawn.fronts), both(&drawn.marks), both(&drawn.limits)));
    let samples = |planes: [&[u16]; 3]| planes.concat().into_iter().map(paper::read).collect::<Vec<_>>();
    let shown = samples([held.samples[0], held.samples[1], held.combined]);
    assert_eq!(shown, samples([&drawn.samples[0], &drawn.samples[1], &drawn.combined]));
    let new = call.planes.shared();
    assert_eq!(new.depths, depths);
    assert_eq!((new.fronts, new.marks), (both(&fresh.fronts), both(&fresh.marks)));
    assert_eq!(new.limits, both(&fresh.limits));
    assert_eq!(new.samples[1 - v], old.samples[1 - v]);
    let w = settings.w as usize;
    for y in 0..settings.h as usize {
        let edited = (block.row as usize..(block.row + block.height) as usize).contains(&y);
        let span = edited.then(|| paper::span(&settings, v, block, old.depths[v], &depths[v], y));
        for x in 0..w {
            let (at, shown) = (y * w + x, span.as_ref().is_some_and(|span| span.shown[x]));
            for (old, new, fresh) in [(old.samples[v], new.samples[v], &fresh.samples[v]), (old.combined, new.combined, &fresh.combined)] {
                let (old, new, fresh) = (old[at], new[at], fresh[at]);
                let stays = new == old && paper::read(old) == fresh;
                assert!(stays || new == fresh && shown, "row {y}, column {x}: {old} became {new}, drawn {fresh}, in the span {shown}");
            }
        }
    }
}

fn both<T>(pair: &[Vec<T>; 2]) -> [&[T]; 2] {
    [&pair[0], &pair[1]]
}

/// Samples of a session above 1,023, of the pictures, of the held planes, and of both.
#[test]
fn raised_samples() {
    random::sessions("raised samples", 3000, |random, _| {
        let mut call = Call::accepted(random);
        for picture in call.pictures_mut() {
            if random.once_in(2) {
                picture.iter_mut().filter(|_| random.once_in(3)).for_each(|entry| *entry = 1023);
            }
        }
        call.open().expect("OPEN accepts it");
        let (mut pictures, mut held) = (call.clone(), call.clone());
        if raise(random, pictures.pictures_mut()) > 0 {
            opened(pictures.clone());
        }
        assert_eq!(pictures.check(), Ok(Report::Sound));
        let raised = raise(random, held.samples_mut());
        assert_eq!(held.check() == Ok(Report::Sound), raised == 0);
        let all = Call { planes: held.planes.clone(), ..pictures.clone() };
        for call in [pictures, held, all] {
            questions(&call);
            moved(call.clone());
            taken_back(call.clone());
            edit(&mut call.clone());
            edit_raised(call);
        }
    });
}

/// 8 where the total that is passed in cannot be a session's.
#[test]
fn totals_out_of_range() {
    let random = &mut Random::new(1, 0);
    for _ in 0..200 {
        let mut call = Call::accepted(random);
        let change = call.get().expect("GET accepts it");
        let most = paper::WORST * u64::from(call.settings.w) * u64::from(call.settings.h);
        for total in [0, 1, most - 1, most, most + 1, 1 << 63, (1 << 63) - 1, u64::MAX, change.unsigned_abs()] {
            call.settings.total = total;
            let expected = if paper::total_is_taken(&call.settings, change) { Ok(change) } else { Err(Refusal::Total) };
            assert_eq!(call.get(), expected);
            let before = call.clone();
            if expected.is_err() {
                assert_eq!(call.set(), expected);
                assert!(call == before, "a refused SET wrote");
            }
            if call.take_back_number() == 0 {
                let change = call.clone().set_of_newest().opened().get().expect("GET accepts it");
                let expected = if paper::total_is_taken(&call.settings, change) { Ok(change) } else { Err(Refusal::Total) };
                assert_eq!(call.clone().take_back(), expected);
                taken_back(call.clone());
            }
        }
    }
}
