//! A first session to look at. An encoder-like search improves two coarse depth maps: for each unit it tries a few hundred
//! candidates with GET, sets its quarters one by one, and takes them back where one candidate for the whole unit is better. In
//! one row every depth is tried in every column, beside the bound of its change. Two neighbouring units are set in both orders, and
//! taken back. Then the seat moves from the left camera to the right one, over the depths that the search found. It prints two
//! tables and writes pictures.

mod encoder;
mod order;
mod pgm;
mod reach;
mod scene;

use luphwezane::{Block, Pictures, Report, Session, Settings, View, GREATEST_SAMPLE};
use pgm::Picture;
use std::io::{IsTerminal, Write};
use std::path::{Path, PathBuf};
use std::process::ExitCode;

const HELP: &str = "\
usage: demo [--out FOLDER] [--disparity QUARTERS] [LEFT RIGHT REFERENCE LEFT-DEPTH RIGHT-DEPTH]

Improves two depth maps block by block, then moves the seat from the left camera to the right one, and writes PGM pictures of what
became of it to FOLDER (target/demo).
Without files it makes a scene of its own. With files, PGM pictures of one size; the first three have the same largest value, 1,023 at
most, and the depth maps 255 at most:

  LEFT, RIGHT               what the two cameras saw
  REFERENCE                 what is to be seen from between them
  LEFT-DEPTH, RIGHT-DEPTH   the depth maps to begin with, larger is nearer

QUARTERS is the shift of the nearest depth, 255, from either camera to the middle, in quarter samples, 0 to 1,023 (96).
";

struct Options {
    out: PathBuf,
    disparity: u16,
    files: Vec<PathBuf>,
}

/// The options, or nothing where help is asked for.
fn options(mut arguments: impl Iterator<Item = String>) -> Result<Option<Options>, String> {
    let mut options = Options { out: PathBuf::from("target/demo"), disparity: 96, files: Vec::new() };
    while let Some(argument) = arguments.next() {
        match argument.as_str() {
            "--help" | "-h" => return Ok(None),
            "--out" => options.out = arguments.next().ok_or("--out needs a folder")?.into(),
            "--disparity" => {
                let number = arguments.next().and_then(|text| text.parse().ok()).filter(|&number| number <= 1023);
                options.disparity = number.ok_or("--disparity needs a number from 0 to 1023")?;
            }
            other if other.starts_with("--") => return Err(format!("{other} is not an option (see --help)")),
            file => options.files.push(file.into()),
        }
    }
    match options.files.len() {
        0 | 5 => Ok(Some(options)),
        n => Err(format!("{n} files, but five are needed: left, right, reference, left depth, right depth (see --help)")),
    }
}

/// What a session is opened with.
struct Input {
    name: &'static str,
    w: usize,
    h: usize,
    /// What the samples of the pictures go up to.
    largest: u16,
    textures: [Vec<u16>; 2],
    /// What is seen from the middle, and from the seats beside it where that is known.
    reference: Vec<u16>,
    between: Option<[Vec<u16>; 2]>,
    depths: [Vec<u8>; 2],
}

impl Input {
    /// What is seen from a seat: at a camera that camera's picture.
    fn seen_from(&self, seat: i32) -> Option<&[u16]> {
        match seat {
            scene::LEFT => Some(&self.textures[0]),
            scene::RIGHT => Some(&self.textures[1]),
            scene::MIDDLE => Some(&self.reference),
            _ => self.between.as_ref().map(|pictures| &pictures[usize::from(seat > scene::MIDDLE)][..]),
        }
    }
}

fn made(disparity: u16) -> Input {
    let table = scene::table(disparity);
    let scene = scene::made(320, 192, &table);
    let depths = scene.depths.each_ref().map(|depths| scene::coarse(depths, scene.w, scene.h, 16));
    let scene::Scene { w, h, textures, reference, .. } = scene;
    let between = Some([-1, 1].map(|side| scene::seen_from(w, h, &table, scene::MIDDLE + side)));
    Input { name: "a made scene", w, h, largest: GREATEST_SAMPLE, textures, reference, between, depths }
}

fn read(files: &[PathBuf]) -> Result<Input, String> {
    let pictures = files.iter().map(|file| pgm::read(file)).collect::<Result<Vec<_>, _>>()?;
    let (w, h) = (pictures[0].w, pictures[0].h);
    for (file, picture) in files.iter().zip(&pictures) {
        if (picture.w, picture.h) != (w, h) {
            let (file, first) = (file.display(), files[0].display());
            return Err(format!("{file} is {} × {}, but {first} is {w} × {h}: all five must have one size", picture.w, picture.h));
        }
    }
    let largest = pictures[0].largest;
    for (file, picture) in files.iter().zip(&pictures).take(3) {
        if picture.largest != largest {
            let (file, first) = (file.display(), files[0].display());
            let what = format!("{file} has samples up to {}, but {first} up to {largest}", picture.largest);
            return Err(format!("{what}: left, right and reference must have one largest value"));
        }
    }
    let depths = [depths(&files[3], &pictures[3])?, depths(&files[4], &pictures[4])?];
    let mut planes = pictures.into_iter().map(|picture| picture.samples);
    let mut next = || planes.next().expect("there are five files");
    let (textures, reference) = ([next(), next()], next());
    Ok(Input { name: "pictures from files", w, h, largest, textures, reference, between: None, depths })
}

/// The depths of a depth map.
fn depths(file: &Path, map: &Picture) -> Result<Vec<u8>, String> {
    match map.largest {
        0..=255 => Ok(map.samples.iter().map(|&depth| depth as u8).collect()),
        largest => Err(format!("{} has samples up to {largest}: depths up to 255 are taken", file.display())),
    }
}

fn main() -> ExitCode {
    let result = options(std::env::args().skip(1)).and_then(|options| match options {
        Some(options) => run(&options),
        None => {
            print!("{HELP}");
            Ok(())
        }
    });
    match result {
        Ok(()) => ExitCode::SUCCESS,
        Err(what) => {
            eprintln!("demo: {what}");
            ExitCode::FAILURE
        }
    }
}

fn run(options: &Options) -> Result<(), String> {
    let input = if options.files.is_empty() { made(options.disparity) } else { read(&options.files)? };
    std::fs::create_dir_all(&options.out).map_err(|error| format!("{} cannot be made: {error}", options.out.display()))?;
    let table = scene::table(options.disparity);
    let (w, h, widest_gap, torn_distance) = (input.w as u32, input.h as u32, 8, 1);
    let settings = Settings { w, h, left: table, right: table, share: 32, tolerance: 16, widest_gap, torn_distance, total: 0 };
    let pictures = Pictures { textures: [&input.textures[0], &input.textures[1]], reference: &input.reference };
    let depths = [&input.depths[0][..], &input.depths[1][..]];
    let mut session = Session::open(&settings, &pictures, depths).map_err(|refusal| refusal.to_string())?;

    println!("Luphwezane: {}, {} × {}, units of {} × {}", input.name, input.w, input.h, encoder::SIDE, encoder::SIDE);
    println!();
    search(&mut session, &options.out, input.largest)?;
    println!();
    show_seats(&mut session, &input, &table, &options.out)?;
    let what = "combined, holes, errors and depths, each before and after, and the view from each seat";
    println!("pictures in {}: {what}", options.out.display());
    Ok(())
}

/// Improves the depths, and prints the table of it.
fn search(session: &mut Session, out: &Path, largest: u16) -> Result<(), String> {
    print_line(["step", "trials", "one value", "line", "mask", "quarters", "backed out", "change of total", "total", "PSNR"]);
    print_line(["open", "", "", "", "", "", "", "", &thousands(session.total() as i64), &psnr(session, largest)]);
    write_inputs(out, session, largest)?;
    write_outputs(out, "before", session, largest)?;
    for round in 1..=2 {
        for view in View::BOTH {
            improve(session, view, largest, round)?;
        }
    }
    write_outputs(out, "after", session, largest)?;
    println!();
    print_check(session)?;
    println!("holes   left {}, right {}", thousands(session.holes(View::Left) as i64), thousands(session.holes(View::Right) as i64));
    View::BOTH.into_iter().try_for_each(|view| print_bound(session, view))?;
    View::BOTH.into_iter().try_for_each(|view| print_order(session, view))
}

/// Every depth in every column of the middle row, beside the bound of its change. An error where one goes past it.
fn print_bound(session: &Session, view: View) -> Result<(), String> {
    let (name, row) = (if view == View::Left { "left" } else { "right" }, session.settings().h / 2);
    let reach::Row { trials, within, nearest } = reach::Row::tried(session, view, row).map_err(|refusal| refusal.to_string())?;
    let reach::Trial { column, depth, length, bound, change } = nearest;
    let [all, kept, change, bound] = [trials as i64, within as i64, change, bound].map(thousands);
    let nearest = format!("nearest is depth {depth} in column {column}: change {change}, bound {bound}, L {length}");
    println!("bound   {name}, row {row}: kept by {kept} of {all} depths tried; {nearest}");
    if within == trials {
        Ok(())
    } else {
        Err("a depth changes the total by more than its bound".into())
    }
}

/// Two neighbouring units in both orders. An error where these do not end alike.
fn print_order(session: &mut Session, view: View) -> Result<(), String> {
    let Some(pair) = order::Pair::found(session, view).map_err(|refusal| refusal.to_string())? else { return Ok(()) };
    let (name, sum) = (if view == View::Left { "left" } else { "right" }, thousands(pair.answers[0].iter().sum()));
    let [Block { row, column: a, .. }, Block { column: b, .. }] = pair.units;
    let [forth, back] = pair.answers.map(|[first, then]| format!("{} and {}", thousands(first), thousands(then)));
    let end = if pair.alike { "ends alike" } else { "ends otherwise" };
    println!("order   {name}, row {row}: units set at column {a}, then {b}: {forth}; at {b}, then {a}: {back}; sum {sum}, {end}");
    if pair.alike {
        Ok(())
    } else {
        Err("two units end otherwise in another order".into())
    }
}

/// Moves from seat to seat over the depths as they stand, and prints the table of it.
fn show_seats(session: &mut Session, input: &Input, table: &[u16; 256], out: &Path) -> Result<(), String> {
    print_seat(["seat", "share", "left shift", "right shift", "left holes", "right holes", "total", "PSNR"]);
    for seat in scene::SEATS {
        if show_from(session, input, table, seat) {
            write(out, &format!("seat-{seat}"), session, input.largest, session.planes().combined)?;
        }
    }
    println!();
    print_check(session)
}

/// What CHECK says; an error where that is not "sound".
fn print_check(session: &Session) -> Result<(), String> {
    let report = session.check();
    println!("check   {}", if report == Report::Sound { "sound".into() } else { format!("{report:?}") });
    match report {
        Report::Sound => Ok(()),
        _ => Err("the session is not sound".into()),
    }
}

/// Moves to a seat, and prints its line of the table; tables and share follow the seat. Where nobody has seen what is seen from
/// there, nothing can be measured. Answers whether the session is there: where the cameras are so far apart that a table is
/// refused, it stays where it was.
fn show_from(session: &mut Session, input: &Input, table: &[u16; 256], seat: i32) -> bool {
    let [left, right] = scene::tables(table, seat);
    let to = Settings { left, right, share: 16 * seat as u8, ..*session.settings() };
    let (seen, name) = (input.seen_from(seat), format!("{seat}{}", scene::place(seat)));
    if let Err(refusal) = session.move_seat(&to, seen.unwrap_or(&input.reference)) {
        println!("{name:<15} {refusal}");
        return false;
    }
    let [total, psnr] = match seen {
        Some(_) => [thousands(session.total() as i64), psnr(session, input.largest)],
        None => ["not known".into(), String::new()],
    };
    let [left, right] = [left[255], right[255]].map(|quarters| thousands(quarters.into()));
    let [left_holes, right_holes] = View::BOTH.map(|view| thousands(session.holes(view) as i64));
    print_seat([&name, &to.share.to_string(), &left, &right, &left_holes, &right_holes, &total, &psnr]);
    true
}

/// A line of the seats' table; the shifts are those of the nearest depth, in quarters.
fn print_seat([seat, share, left, right, left_holes, right_holes, total, psnr]: [&str; 8]) {
    println!("{seat:<15} {share:>5}   {left:>10}   {right:>11}   {left_holes:>10}   {right_holes:>11}   {total:>13}   {psnr:>8}");
}

/// One pass over a view, and its line of the table.
fn improve(session: &mut Session, view: View, largest: u16, round: u32) -> Result<(), String> {
    let name = format!("{}, round {round}", if view == View::Left { "left" } else { "right" });
    let mut progress = Progress::new(&name);
    let pass = encoder::pass(session, view, largest, |done, all| progress.show(done, all)).map_err(|refusal| refusal.to_string())?;
    progress.clear();
    let counts = [pass.trials, pass.values, pass.lines, pass.masks, pass.quarters, pass.backed_out];
    let [trials, values, lines, masks, quarters, backed_out] = counts.map(|count| thousands(count as i64));
    let (change, total) = (thousands(pass.change), thousands(session.total() as i64));
    print_line([&name, &trials, &values, &lines, &masks, &quarters, &backed_out, &change, &total, &psnr(session, largest)]);
    Ok(())
}

/// A line of the table; between trials and change, how many units were set to a candidate of each kind and as quarters, and of
/// how many the quarters were taken back.
fn print_line([step, trials, values, lines, masks, quarters, backed_out, change, total, psnr]: [&str; 10]) {
    println!(
        "{step:<14} {trials:>9}   {values:>9} {lines:>6} {masks:>6} {quarters:>10} {backed_out:>12}   {change:>15}   {total:>13}   {psnr:>8}"
    );
}

/// A line that is written over and over, on a terminal only.
struct Progress<'a> {
    name: &'a str,
    shown: Option<usize>,
    terminal: bool,
}

impl Progress<'_> {
    fn new(name: &str) -> Progress<'_> {
        Progress { name, shown: None, terminal: std::io::stdout().is_terminal() }
    }

    fn show(&mut self, done: usize, all: usize) {
        let percent = 100 * done / all;
        if self.terminal && self.shown != Some(percent) {
            print!("\r{:<14} {percent:>7} %  {}", self.name, "=".repeat(percent / 4));
            let _ = std::io::stdout().flush();
            self.shown = Some(percent);
        }
    }

    fn clear(&self) {
        if self.terminal {
            print!("\r\x1b[K");
        }
    }
}

/// A whole number with its thousands set apart.
fn thousands(number: i64) -> String {
    let digits = number.unsigned_abs().to_string();
    let mut text = String::new();
    for (k, digit) in digits.chars().enumerate() {
        if k > 0 && (digits.len() - k) % 3 == 0 {
            text.push(',');
        }
        text.push(digit);
    }
    if number < 0 {
        text.insert(0, '-');
    }
    text
}

/// The peak signal-to-noise ratio of the combined picture.
fn psnr(session: &Session, largest: u16) -> String {
    match session.total() {
        0 => "exact".into(),
        total => {
            let area = session.planes().combined.len() as f64;
            format!("{:.2} dB", 10.0 * (f64::from(largest).powi(2) * area / total as f64).log10())
        }
    }
}

/// What a session was opened with, so that it can be repeated from files.
fn write_inputs(out: &Path, session: &Session, largest: u16) -> Result<(), String> {
    let pictures = session.pictures();
    write(out, "left", session, largest, pictures.textures[0])?;
    write(out, "right", session, largest, pictures.textures[1])?;
    write(out, "reference", session, largest, pictures.reference)
}

/// The combined picture, each view's holes (white), the errors (four times as large) and the depths.
fn write_outputs(out: &Path, when: &str, session: &Session, largest: u16) -> Result<(), String> {
    let (planes, reference) = (session.planes(), session.pictures().reference);
    write(out, &format!("combined-{when}"), session, largest, planes.combined)?;
    let errors: Vec<u16> = planes.combined.iter().zip(reference).map(|(a, b)| 4 * a.abs_diff(*b)).collect();
    write(out, &format!("errors-{when}"), session, largest, &errors)?;
    for (view, name) in View::BOTH.into_iter().zip(["left", "right"]) {
        let depths: Vec<u16> = planes.depths[view as usize].iter().map(|&depth| depth.into()).collect();
        write(out, &format!("holes-{name}-{when}"), session, 255, &holes(session, view))?;
        write(out, &format!("depth-{name}-{when}"), session, 255, &depths)?;
    }
    Ok(())
}

fn holes(session: &Session, view: View) -> Vec<u16> {
    let Settings { w, h, .. } = *session.settings();
    let places = (0..h).flat_map(|y| (0..w).map(move |x| (x, y)));
    places.map(|(x, y)| if session.is_hole(view, x, y) { 255 } else { 0 }).collect()
}

/// Writes a plane of the session's size as a picture of samples up to `largest`.
fn write(out: &Path, name: &str, session: &Session, largest: u16, samples: &[u16]) -> Result<(), String> {
    let Settings { w, h, .. } = *session.settings();
    pgm::write(&out.join(format!("{name}.pgm")), w as usize, h as usize, largest, samples)
}

#[cfg(test)]
mod tests {
    use super::*;

    /// With the scene's own depths every seat shows what is seen from there, but for columns at the edges of things, and nothing
    /// like what is seen from the others.
    #[test]
    fn true_depths_show_every_seat() {
        let (table, (w, h)) = (scene::table(96), (320, 192));
        let scene::Scene { textures, reference, depths, .. } = scene::made(w, h, &table);
        let (widest_gap, torn_distance) = (8, 1);
        let settings =
            Settings { w: 320, h: 192, left: table, right: table, share: 32, tolerance: 16, widest_gap, torn_distance, total: 0 };
        let pictures = Pictures { textures: [&textures[0], &textures[1]], reference: &reference };
        let mut session = Session::open(&settings, &pictures, [&depths[0], &depths[1]]).expect("OPEN accepts it");
        let middle = session.total();
        for seat in scene::SEATS {
            let [left, right] = scene::tables(&table, seat);
            let to = Settings { left, right, share: 16 * seat as u8, ..settings };
            let totals = scene::SEATS.map(|other| {
                session.move_seat(&to, &scene::seen_from(w, h, &table, other)).expect("MOVE accepts it");
                session.total()
            });
            let own = totals[seat as usize];
            assert!(own < 10 * middle, "seat {seat}: {own}, and {middle} in the middle");
            assert!(totals.iter().all(|&total| total == own || total > 10 * own), "seat {seat}: {totals:?}");
        }
        assert_eq!(scene::tables(&table, scene::MIDDLE), [table; 2]);
        assert_eq!(scene::tables(&table, scene::LEFT)[0], [0; 256]);
        assert_eq!(scene::tables(&table, scene::RIGHT)[1], [0; 256]);
    }
}
