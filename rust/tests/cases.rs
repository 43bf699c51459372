//! The small rows and sessions of document 01, cases a to m, and its boundary values: of the library, and of the
//! independent renderer that the random sessions are matched with.

mod paper;

use luphwezane::{render, Block, Candidate, Pictures, Refusal, Report, Session, Settings, View};

/// Entry d is d.
fn settings(w: u32) -> Settings {
    let table = std::array::from_fn(|d| d as u16);
    Settings { w, h: 1, left: table, right: table, share: 0, tolerance: 255, widest_gap: 8, torn_distance: 1, total: 0 }
}

/// A row, drawn by the library and by the independent renderer.
fn drawn(view: View, texture: &[u16], depths: &[u8]) -> (Vec<u16>, Vec<u8>) {
    let settings = settings(depths.len() as u32);
    let row = render(&settings, view, texture, depths).expect("RENDER accepts it");
    let pixels = paper::drawn_row(&settings, view as usize, texture, depths).pixels;
    assert_eq!(row.samples, pixels.iter().map(|x| x.sample).collect::<Vec<_>>());
    assert_eq!(row.marks, paper::packed(pixels.iter().map(|x| x.mark)));
    assert_eq!(row.fronts, pixels.iter().map(|x| x.front).collect::<Vec<_>>());
    let marks = (0..depths.len()).map(|p| row.marks[p / 8] >> (p % 8) & 1).collect();
    (row.samples, marks)
}

const TEXTURE: [u16; 4] = [10, 20, 30, 40];

#[test]
fn rows_a_to_g() {
    let one = |depth| drawn(View::Left, &[50], &[depth]);
    let row = |view, depths: [u8; 4]| drawn(view, &TEXTURE, &depths);
    assert_eq!(one(0), (vec![50], vec![0]), "a");
    assert_eq!(one(4), (vec![50], vec![1]), "b");
    assert_eq!(row(View::Left, [0, 0, 0, 0]), (vec![10, 20, 30, 40], vec![0, 0, 0, 0]), "c");
    assert_eq!(row(View::Left, [2, 2, 2, 2]), (vec![14, 25, 36, 40], vec![0, 0, 0, 1]), "d");
    assert_eq!(row(View::Right, [2, 2, 2, 2]), (vec![10, 14, 25, 36], vec![1, 0, 0, 0]), "e");
    assert_eq!(row(View::Left, [0, 0, 4, 0]), (vec![10, 30, 36, 40], vec![0, 0, 0, 0]), "f");
    assert_eq!(row(View::Left, [0, 0, 5, 0]), (vec![10, 30, 40, 40], vec![0, 0, 1, 0]), "g");
}

/// The combined sample of one position that both views show: disparities are 0, so that no depth makes a hole.
fn mixed(tolerance: u8, samples: [u16; 2], depths: [u8; 2]) -> u16 {
    let settings = Settings { left: [0; 256], right: [0; 256], share: 32, tolerance, ..settings(1) };
    let pictures = Pictures { textures: [&samples[..1], &samples[1..]], reference: &[0] };
    let depths = [&depths[..1], &depths[1..]];
    let session = Session::open(&settings, &pictures, depths).expect("OPEN accepts it");
    let combined = session.planes().combined;
    assert_eq!(combined, paper::drawing(&settings, &pictures, depths).combined);
    assert_eq!(session.total(), u64::from(combined[0]).pow(2));
    combined[0]
}

#[test]
fn combined_h_to_j() {
    assert_eq!(mixed(0, [10, 21], [7, 7]), 16, "h");
    assert_eq!(mixed(0, [10, 20], [7, 7]), 15, "i");
    assert_eq!(mixed(3, [10, 20], [8, 5]), 15, "j, mixed");
    assert_eq!(mixed(3, [10, 20], [9, 5]), 10, "j, left");
}

#[test]
fn session_k_to_m() {
    let settings = Settings { total: 99, ..settings(4) };
    let pictures = Pictures { textures: [&TEXTURE, &TEXTURE], reference: &TEXTURE };
    let mut session = Session::open(&settings, &pictures, [&[0; 4], &[0; 4]]).expect("OPEN accepts it");
    let block = Block { column: 2, row: 0, width: 1, height: 1 };
    assert_eq!(session.total(), 0);
    assert_eq!(session.get(View::Left, block, Candidate::Full(&[4])), Ok(136), "k");
    assert_eq!(session.get(View::Left, block, Candidate::Full(&[5])), Ok(100), "l");
    assert_eq!(session.set(View::Left, block, Candidate::Full(&[4])), Ok(136));
    assert_eq!(session.get(View::Left, block, Candidate::Full(&[5])), Ok(-36), "m");
    assert_eq!(session.set(View::Left, block, Candidate::Full(&[0])), Ok(-136), "m");
    assert_eq!(session.total(), 0, "m");
    assert_eq!(session.check(), Report::Sound);
}

/// What OPEN answers for a picture of zeros.
fn opened(settings: &Settings) -> Result<(), Refusal> {
    let area = settings.w as usize * settings.h as usize;
    let (picture, depths) = (vec![0; area], vec![0; area]);
    let pictures = Pictures { textures: [&picture, &picture], reference: &picture };
    Session::open(settings, &pictures, [&depths, &depths]).map(|session| assert_eq!(session.check(), Report::Sound))
}

#[test]
fn boundary_values() {
    assert_eq!(opened(&settings(4096)), Ok(()));
    assert_eq!(opened(&settings(0)), Err(Refusal::Size));
    assert_eq!(opened(&settings(4097)), Err(Refusal::Size));
    assert_eq!(opened(&Settings { h: 4096, ..settings(1) }), Ok(()));
    assert_eq!(opened(&Settings { h: 0, ..settings(1) }), Err(Refusal::Size));
    assert_eq!(opened(&Settings { h: 4097, ..settings(1) }), Err(Refusal::Size));
    assert_eq!(opened(&Settings { share: 64, ..settings(4) }), Ok(()));
    assert_eq!(opened(&Settings { share: 65, ..settings(4) }), Err(Refusal::Share));
    for (widest_gap, torn_distance) in [(4, 0), (4, 3), (64, 0), (64, 3), (8, 1)] {
        assert_eq!(opened(&Settings { widest_gap, torn_distance, ..settings(4) }), Ok(()));
    }
    for widest_gap in [0, 3, 65, 255] {
        assert_eq!(opened(&Settings { widest_gap, ..settings(4) }), Err(Refusal::Gap));
    }
    for torn_distance in [4, 5, 255] {
        assert_eq!(opened(&Settings { torn_distance, ..settings(4) }), Err(Refusal::Gap));
    }
    assert_eq!(opened(&Settings { share: 65, widest_gap: 3, ..settings(4) }), Err(Refusal::Share));
    for at in [0, 255] {
        let with = |entry: u16| std::array::from_fn(|d| if d == at { entry } else { 0 });
        assert_eq!(opened(&Settings { left: with(1023), right: with(1023), ..settings(4) }), Ok(()));
        assert_eq!(opened(&Settings { left: with(1024), ..settings(4) }), Err(Refusal::Table));
        assert_eq!(opened(&Settings { right: with(1024), ..settings(4) }), Err(Refusal::Table));
    }
}

/// 1,023 is taken in the first and last entry of each picture, 1,024 gets 21, and 4 where the share is above 64 besides.
#[test]
fn boundary_values_of_samples() {
    for (picture, at) in (0..3).flat_map(|picture| [(picture, 0), (picture, 11)]) {
        let opened = |share: u8, sample: u16| {
            let mut pictures = [[0; 12]; 3];
            pictures[picture][at] = sample;
            let pictures = Pictures { textures: [&pictures[0], &pictures[1]], reference: &pictures[2] };
            Session::open(&Settings { h: 3, share, ..settings(4) }, &pictures, [&[0; 12], &[0; 12]]).map(|session| session.check())
        };
        assert_eq!(opened(64, 1023), Ok(Report::Sound));
        assert_eq!(opened(64, 1024), Err(Refusal::Sample));
        assert_eq!(opened(64, 65535), Err(Refusal::Sample));
        assert_eq!(opened(65, 1024), Err(Refusal::Share));
    }
}

/// RENDER has the same boundary for w, the tables and both numbers of gaps, and none for h, share and samples.
#[test]
fn boundary_values_of_render() {
    let drawn = |settings: Settings| {
        let w = settings.w as usize;
        render(&settings, View::Right, &vec![0; w], &vec![0; w]).map(|row| row.samples.len())
    };
    assert_eq!(drawn(settings(4096)), Ok(4096));
    assert_eq!(drawn(settings(0)), Err(Refusal::Size));
    assert_eq!(drawn(settings(4097)), Err(Refusal::Size));
    assert_eq!(drawn(Settings { h: 0, share: 65, ..settings(9) }), Ok(9));
    assert_eq!(drawn(Settings { left: [1024; 256], ..settings(9) }), Err(Refusal::Table));
    assert_eq!(drawn(Settings { widest_gap: 64, torn_distance: 3, ..settings(9) }), Ok(9));
    assert_eq!(drawn(Settings { widest_gap: 65, ..settings(9) }), Err(Refusal::Gap));
    assert_eq!(drawn(Settings { torn_distance: 4, ..settings(9) }), Err(Refusal::Gap));
    assert_eq!(drawn(Settings { left: [1024; 256], widest_gap: 3, ..settings(9) }), Err(Refusal::Table));
    assert_eq!(render(&settings(9), View::Left, &[0; 9], &[0; 8]), Err(Refusal::Plane));
    assert_eq!(render(&settings(u32::MAX), View::Left, &[], &[]), Err(Refusal::Size));
    let read = render(&settings(4), View::Left, &[0, 1024, 65535, 1023], &[0; 4]).expect("RENDER accepts it");
    assert_eq!(read.samples, [0, 1023, 1023, 1023]);
}

/// The largest change of a picture: every position goes from the left view's sample to the right view's, which the reference
/// has, and back.
fn largest_change(h: u32, left: u16, right: u16) {
    let settings = Settings { h, left: [0; 256], right: [0; 256], tolerance: 0, ..settings(4096) };
    let area = 4096 * h as usize;
    let (left, right) = (vec![left; area], vec![right; area]);
    let (far, near) = (vec![0; area], vec![255; area]);
    let pictures = Pictures { textures: [&left, &right], reference: &right };
    let mut session = Session::open(&settings, &pictures, [&near, &far]).expect("OPEN accepts it");
    let worst = 1_046_529 * 4096 * i64::from(h);
    assert_eq!(session.total() as i64, worst);
    assert_eq!(session.check(), Report::Sound);
    let whole = Block { column: 0, row: 0, width: 4096, height: h };
    assert_eq!(session.get(View::Left, whole, Candidate::Full(&far)), Ok(0));
    assert_eq!(session.set(View::Left, whole, Candidate::Full(&far)), Ok(0));
    session.keep();
    assert_eq!(session.get(View::Right, whole, Candidate::Full(&near)), Ok(-worst));
    assert_eq!(session.set(View::Right, whole, Candidate::Full(&near)), Ok(-worst));
    assert_eq!(session.take_back(), Ok(worst));
    assert_eq!(session.total() as i64, worst);
    assert_eq!(session.set(View::Right, whole, Candidate::Full(&near)), Ok(-worst));
    assert_eq!((session.total(), session.holes(View::Right)), (0, 0));
    session.keep();
    assert_eq!(session.get(View::Right, whole, Candidate::Full(&far)), Ok(worst));
    assert_eq!(session.set(View::Right, whole, Candidate::Full(&far)), Ok(worst));
    assert_eq!(session.total() as i64, worst);
    assert_eq!(session.check(), Report::Sound);
}

/// A row of 4,096 greatest squares, in pictures of few rows and in the largest.
#[test]
fn largest_changes() {
    for h in [1, 2, 3] {
        largest_change(h, 0, 1023);
        largest_change(h, 1023, 0);
    }
    largest_change(4096, 0, 1023);
}

/// Two flat textures show one sample whatever the depths are, and every square stays the greatest.
#[test]
fn every_square_is_the_greatest() {
    let settings = Settings { h: 2, share: 32, ..settings(4096) };
    let (black, white) = ([0; 2 * 4096], [1023; 2 * 4096]);
    let depths: Vec<u8> = (0..2 * 4096).map(|at| (at / 5 * 37 % 256) as u8).collect();
    for (texture, reference) in [(&black, &white), (&white, &black)] {
        let pictures = Pictures { textures: [texture, texture], reference };
        let mut session = Session::open(&settings, &pictures, [&depths, &depths]).expect("OPEN accepts it");
        for (view, column, width) in [(View::Left, 0, 4096), (View::Right, 0, 4096), (View::Left, 4088, 8), (View::Right, 0, 8)] {
            let block = Block { column, row: 0, width, height: 2 };
            let candidate: Vec<u8> = (0..2 * width).map(|at| (at / 3 * 91 % 256) as u8).collect();
            assert_eq!(session.get(view, block, Candidate::Full(&candidate)), Ok(0));
            assert_eq!(session.set(view, block, Candidate::Full(&candidate)), Ok(0));
            assert_eq!((session.total(), session.check()), (1_046_529 * 2 * 4096, Report::Sound));
        }
        assert_eq!(session.planes().combined, texture);
    }
}
