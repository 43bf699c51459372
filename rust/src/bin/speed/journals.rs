//! What the journal costs: SET where so many records stand, which it examines, and TAKE BACK, each against SET with none.

use crate::held::Held;
use crate::span::Span;
use crate::{median, timed, Effort, Random, Stage, Trials};
use luphwezane::{lent, Block, Candidate, Settings, View};

/// How many records stand.
const RECORDS: [(&str, usize); 4] = [("0", 0), ("10", 10), ("100", 100), ("1,000", 1000)];

/// A journal and the index of its newest record.
struct Journal {
    newest: u32,
    words: Vec<u32>,
}

impl Journal {
    /// So many records of one block, whose depths are the same every time, and room for one more.
    fn new(records: usize, view: View, block: Block, depths: &[u8]) -> Journal {
        let Block { column, row, width, height } = block;
        let (mut words, mut newest) = (vec![0], 0);
        for _ in 0..records {
            let next = words.len() as u32;
            words.extend([newest, view as u32, column, row, width, height]);
            words.extend(depths.iter().map(|&depth| u32::from(depth)));
            newest = next;
        }
        words.resize(words.len() + 6 + depths.len(), 0);
        Journal { newest, words }
    }
}

/// The planes that the calls are made on.
struct Library {
    settings: Settings,
    held: Held,
}

impl Library {
    fn open(stage: &Stage) -> Library {
        let (mut settings, mut held) = (stage.settings, Held::new(&stage.settings, &stage.scene));
        let (pictures, mut planes) = held.lent();
        lent::open(&mut settings, &pictures, &mut planes, &mut [0]).expect("OPEN accepts it");
        Library { settings, held }
    }

    /// SETs of all candidates, each with the same records standing.
    fn set(&mut self, trials: &Trials, journal: &mut Journal) -> (f64, Vec<i64>) {
        let (pictures, mut planes) = self.held.lent();
        let mut set = |candidate: &Vec<u8>| {
            journal.words[0] = journal.newest;
            let (view, candidate) = (trials.view as u32, Candidate::Full(candidate));
            lent::set(&mut self.settings, &pictures, &mut planes, &mut journal.words, view, trials.block, candidate)
                .expect("SET accepts it")
        };
        timed(|| trials.candidates.iter().map(&mut set).collect())
    }

    /// TAKE BACKs of records that hold the candidates: each is the same edit as the SET of one.
    fn take_back(&mut self, trials: &Trials) -> (f64, Vec<i64>) {
        let one = |candidate: &Vec<u8>| Journal::new(1, trials.view, trials.block, candidate);
        let mut journals: Vec<Journal> = trials.candidates.iter().map(one).collect();
        let (pictures, mut planes) = self.held.lent();
        let mut take_back = |journal: &mut Journal| {
            journal.words[0] = journal.newest;
            lent::take_back(&mut self.settings, &pictures, &mut planes, &mut journal.words).expect("TAKE BACK accepts it")
        };
        timed(|| journals.iter_mut().map(&mut take_back).collect())
    }
}

/// Prints the table. The candidates of a block are set once before, so that every timed round makes the same edits.
pub fn print(stage: &Stage, effort: &Effort) {
    let heads = RECORDS.map(|(name, _)| format!("SET with {name} records / SET with none")).join(" | ");
    println!("| 1,024 × 768 | {heads} | TAKE BACK / SET |");
    println!("|---|{}---|", "---|".repeat(RECORDS.len()));
    let (mut library, mut span) = (Library::open(stage), Span::open(&stage.settings, &stage.scene));
    for (side, candidates) in [(4, 20), (8, 20), (64, 4)] {
        let random = &mut Random(1);
        let blocks: Vec<Trials> = (0..effort.blocks.div_ceil(10)).map(|_| stage.trials(side, candidates, 12, random)).collect();
        let first = &blocks[0];
        let mut none = Journal::new(0, first.view, first.block, &first.candidates[0]);
        let mut journals = RECORDS.map(|(_, records)| Journal::new(records, first.view, first.block, &first.candidates[0]));
        let mut ratios = vec![Vec::new(); RECORDS.len() + 1];
        for trials in (0..effort.rounds).flat_map(|_| &blocks) {
            let mut by_span = || trials.timed(1, |view, block, candidate| span.set(view, block, candidate)).1;
            let (first, same) = (by_span(), by_span());
            assert!(library.set(trials, &mut none).1 == first, "both answer SET alike");
            let (unit, changes) = library.set(trials, &mut none);
            assert!(changes == same, "both answer SET alike");
            let chains = journals.iter_mut().map(|journal| library.set(trials, journal)).collect::<Vec<_>>();
            for (k, (time, changes)) in chains.into_iter().chain([library.take_back(trials)]).enumerate() {
                assert!(changes == same, "records change no answer, and TAKE BACK is the same edit");
                ratios[k].push(time / unit);
            }
        }
        assert!(span.held.is_same(&library.held.lent().1.shared(), library.settings.total), "both end alike");
        println!("| {side} × {side} | {} |", ratios.into_iter().map(|r| format!("{:.2}", median(r))).collect::<Vec<_>>().join(" | "));
    }
    println!();
}
