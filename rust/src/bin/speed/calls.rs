//! The calls whose instructions are counted: the same rounds of calls by the library, the span renderer and the full redraw,
//! over planes that are there before the first round.

use crate::held::Held;
use crate::kinds::{Kind, Shape, Shapes, KINDS};
use crate::redraw::Redraw;
use crate::span::Span;
use crate::{Random, Stage, Trials};
use luphwezane::{lent, Block, Candidate, Row, Session, Settings, View};
use std::hint::black_box;

/// A kind of call; GET and SET of blocks of a side, with full blocks unless another kind is named. `Same` is GET of the full
/// blocks that candidates of the kind fill. `Back` is a SET that is taken back. The candidate of a refused GET has the wrong
/// length.
#[derive(Clone, Copy)]
pub enum Call {
    Get(usize),
    Of(Kind, usize),
    Same(Kind, usize),
    Refused,
    Set(usize),
    Back(usize),
    Open,
    Move,
    Render,
}

/// The calls that are counted by position.
pub const BY_POSITION: [(&str, Call); 8] = [
    ("GET at 4 × 4", Call::Get(4)),
    ("GET at 8 × 8", Call::Get(8)),
    ("GET at 64 × 64", Call::Get(64)),
    ("SET at 8 × 8", Call::Set(8)),
    ("SET and TAKE BACK at 8 × 8", Call::Back(8)),
    ("OPEN", Call::Open),
    ("MOVE", Call::Move),
    ("RENDER", Call::Render),
];

/// The calls of the library that are counted whole: they show what a GET costs whatever its block.
pub const WHOLE: [(&str, Call); 3] =
    [("GET at 1 × 1", Call::Get(1)), ("GET of one value at 1 × 1", Call::Of(Kind::Value, 1)), ("GET refused", Call::Refused)];

/// The sides of blocks at which the library's GETs are counted by kind.
pub const SIDES: [usize; 3] = [4, 8, 64];

/// GET of a kind at a side, and GET of the same full blocks.
pub fn by_kind((name, kind): (&str, Kind), side: usize) -> [(String, Call); 2] {
    let name = format!("GET of {name} at {side} × {side}");
    let same = format!("{name} as a full block");
    [(name, Call::Of(kind, side)), (same, Call::Same(kind, side))]
}

/// The call that has this name.
fn named(name: &str) -> Option<Call> {
    let mut plain = BY_POSITION.iter().chain(&WHOLE);
    let mut kinds = SIDES.iter().flat_map(|&side| KINDS.map(|kind| by_kind(kind, side))).flatten();
    plain.find(|(other, _)| *other == name).map(|&(_, call)| call).or_else(|| kinds.find(|(other, _)| other == name).map(|(_, call)| call))
}

pub const LIBRARY: &str = "the library";
pub const PROGRAMS: [&str; 3] = [LIBRARY, "span renderer", "full redraw"];

/// The picture that the calls are about.
pub fn stage() -> Stage {
    Stage::new(512, 128, 96)
}

/// Makes rounds of a call and answers the sum of what they answer, which is the same for every program.
pub fn make(call: &str, program: &str, rounds: usize) -> Option<i64> {
    let (call, stage) = (named(call)?, stage());
    let Stage { settings, scene } = &stage;
    match PROGRAMS.iter().position(|name| *name == program)? {
        0 => Some(sum(Library::new(&stage), call, &stage, rounds)),
        1 => Some(sum(Span::open(settings, scene), call, &stage, rounds)),
        _ => Some(sum(Redraw::open(settings, scene), call, &stage, rounds)),
    }
}

/// How many trials a round of GET or SET makes.
pub fn trials(stage: &Stage, call: Call) -> usize {
    let full: usize = blocks(stage, call).iter().map(|trials| trials.candidates.len()).sum();
    full + shapes(stage, call).iter().map(|shapes| shapes.shapes.len()).sum::<usize>()
}

/// How many positions rounds of a call draw: those of the spans, of the picture for OPEN and MOVE, of every row for RENDER.
pub fn positions(stage: &Stage, call: Call, rounds: usize) -> usize {
    let picture = stage.scene.w * stage.scene.h;
    let mut span = Span::open(&stage.settings, &stage.scene);
    let mut drawn = |view, block, candidate: &[u8]| {
        let mut count = span.positions(view as usize, block, candidate);
        if let Call::Set(_) = call {
            span.set(view as usize, block, candidate);
        } else if let Call::Back(_) = call {
            let old = span.held.read(view as usize, block);
            span.set(view as usize, block, candidate);
            count += span.positions(view as usize, block, &old);
            span.set(view as usize, block, &old);
        }
        count
    };
    match call {
        Call::Open | Call::Move => rounds * picture,
        Call::Render => rounds * 2 * picture,
        Call::Of(..) | Call::Same(..) => {
            rounds * each_shape(&shapes(stage, call), |view, block, shape| drawn(view, block, &shape.depths)) as usize
        }
        _ => (0..rounds).map(|_| each(&blocks(stage, call), &mut drawn)).sum::<i64>() as usize,
    }
}

/// The blocks of a round of GET or SET and their candidates.
fn blocks(stage: &Stage, call: Call) -> Vec<Trials> {
    let (side, count, candidates) = match call {
        Call::Get(64) => (64, 4, 2),
        Call::Get(side) | Call::Set(side) | Call::Back(side) => (side, 400 / side, 4),
        Call::Refused => (1, 400, 4),
        Call::Open | Call::Move | Call::Render | Call::Of(..) | Call::Same(..) => return Vec::new(),
    };
    let random = &mut Random(1);
    let mut blocks: Vec<Trials> = (0..count).map(|_| stage.trials(side, candidates, 12, random)).collect();
    if let Call::Refused = call {
        blocks.iter_mut().for_each(|trials| trials.candidates.fill(Vec::new()));
    }
    blocks
}

/// The blocks of a round of GET by kind and their candidates.
fn shapes(stage: &Stage, call: Call) -> Vec<Shapes> {
    let (Call::Of(kind, side) | Call::Same(kind, side)) = call else { return Vec::new() };
    let (count, candidates) = if side == 64 { (4, 2) } else { (400 / side, 4) };
    let random = &mut Random(1);
    (0..count).map(|_| stage.shapes(kind, side, candidates, random)).collect()
}

/// The sum of the answers for all candidates of a kind.
fn each_shape(blocks: &[Shapes], mut call: impl FnMut(View, Block, &Shape) -> i64) -> i64 {
    let mut sum = 0;
    for Shapes { view, block, shapes } in blocks {
        for shape in shapes {
            sum += black_box(call(*view, *block, shape));
        }
    }
    sum
}

/// The sum of the answers for all candidates.
fn each(blocks: &[Trials], mut call: impl FnMut(View, Block, &[u8]) -> i64) -> i64 {
    let mut sum = 0;
    for Trials { view, block, candidates } in blocks {
        for candidate in candidates {
            sum += black_box(call(*view, *block, candidate));
        }
    }
    sum
}

fn sum(mut program: impl Program, call: Call, stage: &Stage, rounds: usize) -> i64 {
    let (blocks, shapes, seats) = (blocks(stage, call), shapes(stage, call), stage.seats());
    let mut sum = 0;
    for round in 0..rounds {
        sum += match call {
            Call::Of(..) => each_shape(&shapes, |view, block, shape| program.get_of(view, block, shape)),
            Call::Same(..) => each_shape(&shapes, |view, block, shape| program.get(view, block, &shape.depths)),
            Call::Get(_) | Call::Refused => each(&blocks, |view, block, candidate| program.get(view, block, candidate)),
            Call::Set(_) => each(&blocks, |view, block, candidate| program.set(view, block, candidate)),
            Call::Back(_) => each(&blocks, |view, block, candidate| program.back(view, block, candidate)),
            Call::Open => black_box(program.open()),
            Call::Move => {
                let (to, reference) = &seats[round % seats.len()];
                black_box(program.move_seat(to, reference))
            }
            Call::Render => rows(stage.scene.h, |view, y| program.render(view, y)),
        };
    }
    sum
}

/// The sum of the answers for all rows of both views.
fn rows(h: usize, mut call: impl FnMut(View, usize) -> i64) -> i64 {
    let mut sum = 0;
    for view in View::BOTH {
        for y in 0..h {
            sum += black_box(call(view, y));
        }
    }
    sum
}

/// A program that makes the calls. OPEN and MOVE answer the total, RENDER the row's first sample.
trait Program {
    fn get(&mut self, view: View, block: Block, candidate: &[u8]) -> i64;

    /// GET of a candidate of its kind; a program that has full blocks alone takes that.
    fn get_of(&mut self, view: View, block: Block, shape: &Shape) -> i64 {
        self.get(view, block, &shape.depths)
    }

    fn set(&mut self, view: View, block: Block, candidate: &[u8]) -> i64;

    /// A SET, and the depths that were there again; the second change.
    fn back(&mut self, view: View, block: Block, candidate: &[u8]) -> i64;
    fn open(&mut self) -> i64;
    fn move_seat(&mut self, to: &Settings, reference: &[u16]) -> i64;
    fn render(&mut self, view: View, y: usize) -> i64;
}

/// The library: a session for GET, SET, TAKE BACK and MOVE; planes and a row of its own for OPEN and RENDER, which are lent them.
struct Library {
    session: Session,
    settings: Settings,
    held: Held,
    row: Row,
}

impl Library {
    fn new(stage: &Stage) -> Library {
        let Stage { settings, scene } = stage;
        let row = Row { samples: vec![0; scene.w], marks: vec![0; scene.w.div_ceil(8)], fronts: vec![0; scene.w] };
        Library { session: stage.session(), settings: *settings, held: Held::new(settings, scene), row }
    }
}

impl Program for Library {
    /// A refused GET answers its number, below zero.
    fn get(&mut self, view: View, block: Block, candidate: &[u8]) -> i64 {
        match self.session.get(view, block, Candidate::Full(candidate)) {
            Ok(change) => change,
            Err(refusal) => -i64::from(refusal.number()),
        }
    }

    fn get_of(&mut self, view: View, block: Block, shape: &Shape) -> i64 {
        self.session.get(view, block, shape.candidate()).expect("GET accepts it")
    }

    /// Every SET finds the journal empty.
    fn set(&mut self, view: View, block: Block, candidate: &[u8]) -> i64 {
        self.session.keep();
        self.session.set(view, block, Candidate::Full(candidate)).expect("SET accepts it")
    }

    fn back(&mut self, view: View, block: Block, candidate: &[u8]) -> i64 {
        self.session.set(view, block, Candidate::Full(candidate)).expect("SET accepts it");
        self.session.take_back().expect("TAKE BACK accepts it")
    }

    fn open(&mut self) -> i64 {
        let (pictures, mut planes) = self.held.lent();
        lent::open(&mut self.settings, &pictures, &mut planes, &mut [0]).expect("OPEN accepts it");
        self.settings.total as i64
    }

    fn move_seat(&mut self, to: &Settings, reference: &[u16]) -> i64 {
        self.session.move_seat(to, reference).expect("MOVE accepts it");
        self.session.total() as i64
    }

    fn render(&mut self, view: View, y: usize) -> i64 {
        let (part, Row { samples, marks, fronts }) = (y * self.held.w..(y + 1) * self.held.w, &mut self.row);
        let (texture, depths) = (&self.held.textures[view as usize][part.clone()], &self.held.depths[view as usize][part]);
        lent::render(&self.settings, view as u32, texture, depths, samples, marks, fronts).expect("RENDER accepts it");
        i64::from(samples[0])
    }
}

impl Program for Span {
    fn get(&mut self, view: View, block: Block, candidate: &[u8]) -> i64 {
        Span::get(self, view as usize, block, candidate)
    }

    fn set(&mut self, view: View, block: Block, candidate: &[u8]) -> i64 {
        Span::set(self, view as usize, block, candidate)
    }

    fn back(&mut self, view: View, block: Block, candidate: &[u8]) -> i64 {
        let old = self.held.read(view as usize, block);
        Span::set(self, view as usize, block, candidate);
        Span::set(self, view as usize, block, &old)
    }

    fn open(&mut self) -> i64 {
        self.draw_all();
        self.held.total as i64
    }

    fn move_seat(&mut self, to: &Settings, reference: &[u16]) -> i64 {
        Span::move_seat(self, to, reference);
        self.held.total as i64
    }

    fn render(&mut self, view: View, y: usize) -> i64 {
        Span::render(self, view as usize, y);
        i64::from(self.held.samples[view as usize][y * self.held.w])
    }
}

impl Program for Redraw {
    fn get(&mut self, view: View, block: Block, candidate: &[u8]) -> i64 {
        Redraw::get(self, view as usize, block, candidate)
    }

    fn set(&mut self, view: View, block: Block, candidate: &[u8]) -> i64 {
        Redraw::set(self, view as usize, block, candidate)
    }

    fn back(&mut self, view: View, block: Block, candidate: &[u8]) -> i64 {
        let old = self.held.read(view as usize, block);
        Redraw::set(self, view as usize, block, candidate);
        Redraw::set(self, view as usize, block, &old)
    }

    fn open(&mut self) -> i64 {
        self.draw_all();
        self.held.total as i64
    }

    fn move_seat(&mut self, to: &Settings, reference: &[u16]) -> i64 {
        Redraw::move_seat(self, to, reference);
        self.held.total as i64
    }

    fn render(&mut self, view: View, y: usize) -> i64 {
        Redraw::render(self, view as usize, y);
        i64::from(self.held.samples[view as usize][y * self.held.w])
    }
}
