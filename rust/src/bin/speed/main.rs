//! How fast the library is, as ratios measured in one run on one machine: its calls against a program that redraws the
//! block's rows completely and against a span renderer written for speed in Rust, GET of one value, a line and a mask against
//! GET of the same full block, SET with records in its journal and TAKE BACK against SET with none, HOLES against counting by
//! the mark and by the word. All must answer alike.
//!
//! It prints the tables of docs/SPEED.md. `--short` measures little and is for seeing that the answers agree.
//! `--instructions` counts instructions, which needs valgrind.

mod calls;
mod count;
mod held;
mod holes;
mod journals;
mod kinds;
mod redraw;
#[path = "../demo/scene.rs"]
mod scene;
mod span;

use kinds::{Shape, Shapes, KINDS};
use luphwezane::{Block, Candidate, Pictures, Session, Settings, View};
use redraw::Redraw;
use scene::Scene;
use span::Span;
use std::hint::black_box;
use std::time::Instant;

/// How much is measured: rounds over so many blocks.
struct Effort {
    rounds: usize,
    blocks: usize,
}

fn main() {
    let words: Vec<String> = std::env::args().skip(1).collect();
    let words: Vec<&str> = words.iter().map(String::as_str).collect();
    if let Err(message) = run(&words) {
        eprintln!("{message}");
        std::process::exit(1);
    }
}

/// `--calls` is what `--instructions` runs under valgrind.
fn run(words: &[&str]) -> Result<(), String> {
    match *words {
        [] => times(&Effort { rounds: 9, blocks: 200 }),
        ["--short"] => times(&Effort { rounds: 1, blocks: 20 }),
        ["--instructions"] => count::print()?,
        ["--calls", call, program, rounds] => {
            let rounds = rounds.parse().map_err(|_| format!("{rounds} is no number of rounds"))?;
            println!("{}", calls::make(call, program, rounds).ok_or("no such call or program")?);
        }
        _ => return Err("usage: speed [--short | --instructions]".to_string()),
    }
    Ok(())
}

/// Prints the tables of times, and the ratios that have targets.
fn times(effort: &Effort) {
    println!("Ratios of times, medians over {} blocks and {} rounds. Below 1 the library is faster.\n", effort.blocks, effort.rounds);
    let stage = Stage::new(1024, 768, 96);
    let [at_4, at_8, at_64] = get_and_set(&stage, effort);
    by_kind(&stage, effort);
    journals::print(&stage, effort);
    let open = open_and_move(&stage, effort);
    let wide = widths(effort);
    disparities(effort);
    let holes = holes(effort);
    println!("Targets:");
    println!("GET / full redraw at 8 × 8: {:.3} (less than 0.1)", at_8.get[0]);
    let three = |ratio: fn(&Ratios) -> f64| [&at_4, &at_8, &at_64].map(|ratios| format!("{:.2}", ratio(ratios))).join(", ");
    println!("GET / span renderer at 4 × 4, 8 × 8, 64 × 64: {} (at most 1.25)", three(|ratios| ratios.get[1]));
    println!("SET / span renderer at 4 × 4, 8 × 8, 64 × 64: {} (at most 1.7)", three(|ratios| ratios.set[1]));
    println!("OPEN / span renderer: {:.2} (at most 1.1)", open[1]);
    println!("GET at 4,096 columns / GET at 256 columns: {wide:.2} (flat)");
    let [words, tails] = holes;
    println!("HOLES / mark by mark at 1,024 and 1,001 columns: {:.3}, {:.3} (at most 0.2)", words[0], tails[0]);
    println!("HOLES / by the word at 1,024 and 1,001 columns: {:.2}, {:.2} (at most 1.3)", words[1], tails[1]);
}

/// A scene and its settings.
struct Stage {
    settings: Settings,
    scene: Scene,
}

impl Stage {
    /// The made scene, for disparities up to `largest` quarters.
    fn new(w: usize, h: usize, largest: u16) -> Stage {
        Stage::of(scene::made(w, h, &scene::table(largest)), largest)
    }

    fn of(scene: Scene, largest: u16) -> Stage {
        let table = scene::table(largest);
        let (w, h) = (scene.w as u32, scene.h as u32);
        let (share, tolerance, widest_gap, torn_distance) = (32, 16, 8, 1);
        Stage { settings: Settings { w, h, left: table, right: table, share, tolerance, widest_gap, torn_distance, total: 0 }, scene }
    }

    /// Two seats beside the middle, with other numbers of gaps each, and what is seen from the nearer camera.
    fn seats(&self) -> [(Settings, &[u16]); 2] {
        [(1, 16, 10, 0, 0), (3, 48, 12, 2, 1)].map(|(seat, share, widest_gap, torn_distance, camera): (i32, u8, u8, u8, usize)| {
            let [left, right] = scene::tables(&self.settings.left, seat);
            (Settings { left, right, share, widest_gap, torn_distance, ..self.settings }, &self.scene.textures[camera][..])
        })
    }

    /// The same picture several times side by side.
    fn repeated(&self, times: usize) -> Stage {
        let Scene { w, h, textures, reference, depths } = &self.scene;
        let textures = textures.each_ref().map(|plane| repeated(plane, *w, times));
        let depths = depths.each_ref().map(|plane| repeated(plane, *w, times));
        let scene = Scene { w: w * times, h: *h, textures, reference: repeated(reference, *w, times), depths };
        Stage { settings: Settings { w: scene.w as u32, ..self.settings }, scene }
    }

    fn session(&self) -> Session {
        let Scene { textures: [left, right], reference, depths: [left_depths, right_depths], .. } = &self.scene;
        let pictures = Pictures { textures: [left, right], reference };
        Session::open(&self.settings, &pictures, [left_depths, right_depths]).expect("the scene is accepted")
    }

    /// Trials at one random block, as an encoder makes them: one depth, or the block's own depths, moved by up to `most`.
    fn trials(&self, side: usize, count: usize, most: usize, random: &mut Random) -> Trials {
        let Scene { w, h, depths, .. } = &self.scene;
        let view = View::BOTH[random.below(2)];
        let (column, row) = (random.below(w / side) * side, random.below(h / side) * side);
        let own: Vec<u8> = (0..side * side).map(|k| depths[view as usize][(row + k / side) * w + column + k % side]).collect();
        let candidates = (0..count).map(|k| {
            let shift = random.below(2 * most + 1) as i32 - most as i32;
            own.iter().map(|&depth| (i32::from(if k % 2 == 0 { own[0] } else { depth }) + shift).clamp(0, 255) as u8).collect()
        });
        let candidates = candidates.collect();
        Trials { view, block: Block { column: column as u32, row: row as u32, width: side as u32, height: side as u32 }, candidates }
    }
}

/// A plane with every row of w entries several times side by side.
fn repeated<T: Copy>(plane: &[T], w: usize, times: usize) -> Vec<T> {
    plane.chunks(w).flat_map(|row| row.repeat(times)).collect()
}

/// A small generator, the same in every run.
struct Random(u64);

impl Random {
    fn below(&mut self, n: usize) -> usize {
        self.0 = self.0.wrapping_mul(6364136223846793005).wrapping_add(1442695040888963407);
        (self.0 >> 33) as usize % n
    }
}

/// Candidates for one block.
struct Trials {
    view: View,
    block: Block,
    candidates: Vec<Vec<u8>>,
}

impl Trials {
    /// The answers of one kind of call for all candidates, and the time of a call. Only the first calls are timed, one in
    /// `every`: short pieces are seldom interrupted.
    fn timed(&self, every: usize, mut call: impl FnMut(usize, Block, &[u8]) -> i64) -> (f64, Vec<i64>) {
        let mut answer = |candidate: &Vec<u8>| call(self.view as usize, self.block, candidate);
        let (first, rest) = self.candidates.split_at(self.candidates.len().div_ceil(every));
        let (time, mut answers) = timed(|| first.iter().map(&mut answer).collect::<Vec<i64>>());
        answers.extend(rest.iter().map(answer));
        (time / first.len() as f64, answers)
    }
}

/// The seconds that a piece of work takes, and its answer.
fn timed<T>(work: impl FnOnce() -> T) -> (f64, T) {
    let start = Instant::now();
    let answer = black_box(work());
    (start.elapsed().as_secs_f64(), answer)
}

fn median(mut numbers: Vec<f64>) -> f64 {
    numbers.sort_by(f64::total_cmp);
    numbers[numbers.len() / 2]
}

/// The medians of the library's time by the second program's and by the third's.
fn ratios(times: &[[f64; 3]]) -> [f64; 2] {
    [1, 2].map(|other| median(times.iter().map(|t| t[0] / t[other]).collect()))
}

/// The ratios of GET and SET at a block size.
struct Ratios {
    get: [f64; 2],
    set: [f64; 2],
}

/// GET and SET at three block sizes.
fn get_and_set(stage: &Stage, effort: &Effort) -> [Ratios; 3] {
    println!("| 1,024 × 768 | GET / full redraw | GET / span renderer | SET / full redraw | SET / span renderer |");
    println!("|---|---|---|---|---|");
    let ratios = [(4, 20), (8, 20), (64, 4)].map(|(side, candidates)| {
        let random = &mut Random(1);
        let blocks: Vec<Trials> = (0..effort.blocks).map(|_| stage.trials(side, candidates, 12, random)).collect();
        let (get, set) = (get(stage, &blocks, effort.rounds), set(stage, &blocks, effort.rounds));
        println!("| {side} × {side} | {:.4} | {:.2} | {:.4} | {:.2} |", get[0], get[1], set[0], set[1]);
        Ratios { get, set }
    });
    println!();
    ratios
}

fn get(stage: &Stage, blocks: &[Trials], rounds: usize) -> [f64; 2] {
    let (session, span) = (stage.session(), Span::open(&stage.settings, &stage.scene));
    let mut redraw = Redraw::open(&stage.settings, &stage.scene);
    let mut times = Vec::new();
    for trials in (0..rounds).flat_map(|_| blocks) {
        let (library, a) =
            trials.timed(1, |_, block, candidate| session.get(trials.view, block, Candidate::Full(candidate)).expect("GET accepts it"));
        let (rows, b) = trials.timed(10, |view, block, candidate| redraw.get(view, block, candidate));
        let (spans, c) = trials.timed(1, |view, block, candidate| span.get(view, block, candidate));
        assert!(a == b && a == c, "the three answer GET alike");
        times.push([library, rows, spans]);
    }
    ratios(&times)
}

/// Every SET of the library finds its journal empty; the other programs save nothing.
fn set(stage: &Stage, blocks: &[Trials], rounds: usize) -> [f64; 2] {
    let (mut session, mut span) = (stage.session(), Span::open(&stage.settings, &stage.scene));
    let mut redraw = Redraw::open(&stage.settings, &stage.scene);
    let mut times = Vec::new();
    for trials in (0..rounds).flat_map(|_| blocks) {
        let (library, a) = trials.timed(1, |_, block, candidate| {
            session.keep();
            session.set(trials.view, block, Candidate::Full(candidate)).expect("SET accepts it")
        });
        let (rows, b) = trials.timed(10, |view, block, candidate| redraw.set(view, block, candidate));
        let (spans, c) = trials.timed(1, |view, block, candidate| span.set(view, block, candidate));
        assert!(a == b && a == c, "the three answer SET alike");
        times.push([library, rows, spans]);
    }
    let (planes, total) = (session.planes(), session.total());
    assert!(span.held.is_same(&planes, total) && redraw.held.is_same(&planes, total), "the three end alike");
    ratios(&times)
}

/// GET of one value, of a line and of a mask, each against GET of the full block of the same depths. Every call is made once
/// before it is timed, so that neither of the two finds the planes colder than the other.
fn by_kind(stage: &Stage, effort: &Effort) {
    let (session, span) = (stage.session(), Span::open(&stage.settings, &stage.scene));
    println!("| GET / GET of the same full block | {} |", KINDS.map(|(name, _)| name).join(" | "));
    println!("|---|---|---|---|");
    for (side, candidates) in [(4, 20), (8, 20), (64, 4)] {
        let ratios = KINDS.map(|(_, kind)| {
            let random = &mut Random(1);
            let blocks: Vec<Shapes> = (0..effort.blocks).map(|_| stage.shapes(kind, side, candidates, random)).collect();
            let mut ratios = Vec::new();
            for (k, Shapes { view, block, shapes }) in (0..effort.rounds).flat_map(|_| &blocks).enumerate() {
                let get = |candidate: Candidate| session.get(*view, *block, candidate).expect("GET accepts it");
                let by_kind = || timed(|| shapes.iter().map(|shape| get(shape.candidate())).collect::<Vec<i64>>());
                let full = || timed(|| shapes.iter().map(|shape| get(Candidate::Full(&shape.depths))).collect::<Vec<i64>>());
                let same: Vec<i64> = shapes.iter().map(|Shape { depths, .. }| span.get(*view as usize, *block, depths)).collect();
                let (_, (_, warm)) = (by_kind(), full());
                let ((a, first), (b, second)) = if k % 2 == 0 { (by_kind(), full()) } else { (full(), by_kind()) };
                assert!(first == same && second == same && warm == same, "GET answers as for the full block");
                ratios.push(if k % 2 == 0 { a / b } else { b / a });
            }
            format!("{:.2}", median(ratios))
        });
        println!("| {side} × {side} | {} |", ratios.join(" | "));
    }
    println!();
}

/// OPEN and MOVE; answers OPEN's ratios. Each program makes its planes in OPEN and has them in MOVE, which is the drawing alone.
fn open_and_move(stage: &Stage, effort: &Effort) -> [f64; 2] {
    println!("| 1,024 × 768 | the library / full drawing | the library / span renderer |");
    println!("|---|---|---|");
    let ratios = open(stage, effort);
    for (name, ratios) in [("OPEN", ratios), ("MOVE", moved(stage, effort))] {
        println!("| {name} | {:.2} | {:.2} |", ratios[0], ratios[1]);
    }
    println!();
    ratios
}

/// MOVE's ratios.
fn moved(stage: &Stage, effort: &Effort) -> [f64; 2] {
    let (mut session, mut span) = (stage.session(), Span::open(&stage.settings, &stage.scene));
    let mut redraw = Redraw::open(&stage.settings, &stage.scene);
    let mut times = Vec::new();
    for (to, reference) in (0..effort.rounds).flat_map(|_| stage.seats()) {
        let (library, answer) = timed(|| session.move_seat(&to, reference));
        answer.expect("MOVE accepts it");
        let (rows, ()) = timed(|| redraw.move_seat(&to, reference));
        let (spans, ()) = timed(|| span.move_seat(&to, reference));
        let (planes, total) = (session.planes(), session.total());
        assert!(span.held.is_same(&planes, total) && redraw.held.is_same(&planes, total), "the three move alike");
        times.push([library, rows, spans]);
    }
    ratios(&times)
}

/// OPEN's ratios.
fn open(stage: &Stage, effort: &Effort) -> [f64; 2] {
    let mut times = Vec::new();
    for _ in 0..effort.rounds {
        let (library, session) = timed(|| stage.session());
        let (rows, redraw) = timed(|| Redraw::open(&stage.settings, &stage.scene));
        let (spans, span) = timed(|| Span::open(&stage.settings, &stage.scene));
        let (planes, total) = (session.planes(), session.total());
        assert!(span.held.is_same(&planes, total) && redraw.held.is_same(&planes, total), "the three open alike");
        times.push([library, rows, spans]);
    }
    ratios(&times)
}

/// HOLES of a picture whose rows are whole words, and of one whose rows have a tail.
fn holes(effort: &Effort) -> [[f64; 2]; 2] {
    println!("| HOLES | HOLES / mark by mark | HOLES / by the word |");
    println!("|---|---|---|");
    let ratios = [("1,024 × 768", 1024), ("1,001 × 768", 1001)].map(|(size, w)| {
        let session = Stage::new(w, 768, 96).session();
        let mut times = Vec::new();
        for view in (0..effort.rounds * effort.blocks).map(|k| View::BOTH[k % 2]) {
            let marks = black_box(session.planes().marks[view as usize]);
            let (library, a) = timed(|| session.holes(view));
            let (marked, b) = timed(|| holes::by_mark(marks, w));
            let (words, c) = timed(|| holes::by_word(marks, w));
            assert!(a == b && a == c, "the three count alike");
            times.push([library, marked, words]);
        }
        let ratios = ratios(&times);
        println!("| {size} | {:.3} | {:.2} |", ratios[0], ratios[1]);
        ratios
    });
    println!();
    ratios
}

/// GET of the same 8 × 8 blocks in pictures of growing width, whose columns repeat those of the narrowest. Answers the ratio
/// of the widest.
fn widths(effort: &Effort) -> f64 {
    let (narrow, random) = (Stage::new(256, 64, 96), &mut Random(1));
    let mut blocks: Vec<Trials> = (0..4 * effort.blocks).map(|_| narrow.trials(8, 20, 12, random)).collect();
    blocks.retain(|trials| (64..192).contains(&trials.block.column));
    let sessions = [1, 2, 4, 8, 16].map(|times| narrow.repeated(times).session());
    let growth = growth(&sessions, &blocks, effort.rounds, 0);
    println!("| columns | GET at 8 × 8 / GET at 256 columns |");
    println!("|---|---|");
    for (session, (ratio, answers)) in sessions.iter().zip(&growth) {
        assert!(*answers == growth[0].1, "the answers do not depend on the width");
        println!("| {} | {ratio:.2} |", session.settings().w);
    }
    println!();
    growth[growth.len() - 1].0
}

/// GET of the same 8 × 8 blocks of the same pictures with growing disparities and candidates far from the depths that are
/// there: the span grows with the shift.
fn disparities(effort: &Effort) {
    let largest = [0, 16, 64, 256, 1023];
    let stages = largest.map(|largest| Stage::of(scene::made(1024, 768, &scene::table(96)), largest));
    let random = &mut Random(1);
    let blocks: Vec<Trials> = (0..effort.blocks).map(|_| stages[0].trials(8, 20, 128, random)).collect();
    let growth = growth(&stages.each_ref().map(Stage::session), &blocks, effort.rounds, 2);
    println!("| largest disparity, quarters | GET at 8 × 8 / GET at 64 | positions drawn a row, mean |");
    println!("|---|---|---|");
    for (k, (ratio, answers)) in growth.iter().enumerate() {
        let span = Span::open(&stages[k].settings, &stages[k].scene);
        let same: Vec<i64> = blocks.iter().flat_map(|trials| trials.timed(1, |view, block, c| span.get(view, block, c)).1).collect();
        assert!(*answers == same, "both answer GET alike");
        let drawn = |trials: &Trials| trials.timed(1, |view, block, c| span.positions(view, block, c)).1.iter().sum::<i64>();
        let mean = blocks.iter().map(drawn).sum::<i64>() as f64 / (8 * same.len()) as f64;
        println!("| {} | {ratio:.2} | {mean:.1} |", largest[k]);
    }
    println!();
}

/// For each session the median ratio of its time to that of the session `base`, and its answers.
fn growth(sessions: &[Session], blocks: &[Trials], rounds: usize, base: usize) -> Vec<(f64, Vec<i64>)> {
    let mut ratios = vec![Vec::new(); sessions.len()];
    let mut answers = vec![Vec::new(); sessions.len()];
    for round in 0..rounds {
        for trials in blocks {
            let get = |session: &Session| {
                trials.timed(1, |_, block, c| session.get(trials.view, block, Candidate::Full(c)).expect("GET accepts it"))
            };
            let timed: Vec<(f64, Vec<i64>)> = sessions.iter().map(get).collect();
            let unit = timed[base].0;
            for (k, (time, changes)) in timed.into_iter().enumerate() {
                ratios[k].push(time / unit);
                if round == 0 {
                    answers[k].extend(changes);
                }
            }
        }
    }
    ratios.into_iter().map(median).zip(answers).collect()
}

#[cfg(test)]
mod tests {
    use super::{Random, Redraw, Span, Stage};
    use crate::held::Held;
    use luphwezane::{lent, Candidate};

    /// Every sample of 1,023, of the pictures and of what is held, made higher.
    fn raise(held: &mut Held) {
        let planes = held.textures.iter_mut().chain(&mut held.samples).chain([&mut held.reference, &mut held.combined]);
        let raised = planes.flatten().filter(|entry| **entry == 1023).enumerate();
        raised.for_each(|(k, entry)| *entry = [1024, 65535, 32768][k % 3]);
    }

    /// All three read a higher sample as 1,023: their answers stay those of the session.
    #[test]
    fn higher_samples_change_no_answer() {
        let mut stage = Stage::new(160, 48, 96);
        let scene = &mut stage.scene;
        for picture in scene.textures.iter_mut().chain([&mut scene.reference]) {
            picture.iter_mut().filter(|entry| **entry % 3 == 0).for_each(|entry| *entry = 1023);
        }
        let (mut session, settings) = (stage.session(), &stage.settings);
        let (mut span, mut redraw) = (Span::open(settings, &stage.scene), Redraw::open(settings, &stage.scene));
        let random = &mut Random(1);
        for _ in 0..60 {
            let trials = stage.trials(8, 4, 60, random);
            let (view, block) = (trials.view, trials.block);
            raise(&mut span.held);
            raise(&mut redraw.held);
            for candidate in &trials.candidates {
                let change = session.get(view, block, Candidate::Full(candidate)).expect("GET accepts it");
                assert_eq!(span.get(view as usize, block, candidate), change);
                assert_eq!(redraw.get(view as usize, block, candidate), change);
                let (pictures, planes) = span.held.lent();
                let candidate = Candidate::Full(candidate);
                assert_eq!(lent::get(session.settings(), &pictures, &planes.shared(), view as u32, block, candidate), Ok(change));
            }
            let change = session.set(view, block, Candidate::Full(&trials.candidates[0])).expect("SET accepts it");
            assert_eq!(span.set(view as usize, block, &trials.candidates[0]), change);
            assert_eq!(redraw.set(view as usize, block, &trials.candidates[0]), change);
        }
    }
}
