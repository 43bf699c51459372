//! The demonstration program: its own scene, the same from files, the seat that moves, and what it says of files that it cannot take.

use std::path::{Path, PathBuf};
use std::process::{Command, Output};

fn demo(arguments: &[&str]) -> Output {
    Command::new(env!("CARGO_BIN_EXE_demo")).args(arguments).output().expect("the program starts")
}

fn folder(name: &str) -> PathBuf {
    let folder = Path::new(env!("CARGO_TARGET_TMPDIR")).join(name);
    std::fs::create_dir_all(&folder).expect("the folder can be made");
    folder
}

fn text(path: &Path) -> &str {
    path.to_str().expect("the path is text")
}

/// The lines of the table and the verdict, which the title and the folder's name are no part of.
fn numbers(output: &Output) -> Vec<String> {
    assert!(output.status.success(), "{}", String::from_utf8_lossy(&output.stderr));
    let lines = String::from_utf8_lossy(&output.stdout);
    lines.lines().skip(1).filter(|line| !line.starts_with("pictures in")).map(str::to_string).collect()
}

/// How many units were set to one value, by a line, by a mask and as quarters, and of how many the quarters were taken back.
fn chosen(numbers: &[String]) -> [u64; 5] {
    let passes = numbers.iter().filter(|line| line.contains(", round "));
    passes.fold([0; 5], |sums, line| {
        let cells: Vec<&str> = line.split_whitespace().collect();
        std::array::from_fn(|k| sums[k] + cells[4 + k].parse::<u64>().expect("a number"))
    })
}

/// The lines of the seats, without their numbers.
fn seats(numbers: &[String]) -> Vec<Vec<&str>> {
    let lines = numbers.iter().skip_while(|line| !line.starts_with("seat ")).skip(1);
    lines.take_while(|line| !line.is_empty()).map(|line| line.split_whitespace().collect()).collect()
}

/// The total that a line of a table ends with, before its PSNR.
fn total<'a>(cells: &[&'a str]) -> &'a str {
    cells[cells.len() - 3]
}

/// The middle of what is bright in some rows, in hundredths of a column: there the pole stands before the wall.
fn middle_of_the_pole(samples: &[u16]) -> usize {
    let bright = |y: usize| (200..320).filter(move |x| samples[y * 320 + x] > 700);
    let columns: Vec<usize> = (30..80).flat_map(bright).collect();
    100 * columns.iter().sum::<usize>() / columns.len()
}

/// The numbers of the line that says how near a depth of a view comes to the bound: row, depths within the bound, depths tried, the
/// nearest one and its column, its change, its bound and L.
fn nearest(numbers: &[String], view: &str) -> [i64; 8] {
    let line = numbers.iter().find(|line| line.starts_with(&format!("bound   {view}, "))).expect("it says how near a depth comes");
    let text = line.replace(',', "");
    let found: Vec<i64> = text.split([' ', ':', ';']).filter_map(|word| word.parse().ok()).collect();
    found.try_into().unwrap_or_else(|_| panic!("{line}"))
}

/// The numbers of the line that says what two units of a view answer in both orders: row, the columns of the first and of the other
/// unit, what these answer, both columns the other way round and their answers, and the sum.
fn order(numbers: &[String], view: &str) -> [i64; 10] {
    let line = numbers.iter().find(|line| line.starts_with(&format!("order   {view}, "))).expect("it sets two units in both orders");
    assert!(line.ends_with(", ends alike"), "{line}");
    let text = line.replace(", ", " ").replace(',', "");
    let found: Vec<i64> = text.split([' ', ':', ';']).filter_map(|word| word.parse().ok()).collect();
    found.try_into().unwrap_or_else(|_| panic!("{line}"))
}

/// The arguments for a run from files of a folder, with pictures written to another.
fn run_again<'a>(files: &'a [PathBuf; 5], out: &'a Path) -> Vec<&'a str> {
    ["--out", text(out)].into_iter().chain(files.iter().map(|file| text(file))).collect()
}

/// The largest sample and the samples of a written picture of w × h.
fn picture(path: &Path, w: usize, h: usize) -> (u16, Vec<u16>) {
    let bytes = std::fs::read(path).expect("the picture was written");
    let rest = bytes.strip_prefix(format!("P5\n{w} {h}\n").as_bytes()).expect("it has its size");
    let end = rest.iter().position(|&byte| byte == b'\n').expect("a line ends");
    let largest = std::str::from_utf8(&rest[..end]).ok().and_then(|text| text.parse().ok()).expect("a number");
    let samples: Vec<u16> = match largest {
        0..=255 => rest[end + 1..].iter().map(|&byte| byte.into()).collect(),
        _ => rest[end + 1..].chunks(2).map(|two| u16::from_be_bytes([two[0], two[1]])).collect(),
    };
    assert_eq!(samples.len(), w * h);
    (largest, samples)
}

#[test]
fn made_scene_and_the_same_from_files() {
    let (made, again) = (folder("made"), folder("again"));
    let first = numbers(&demo(&["--out", text(&made)]));
    assert!(first.contains(&"check   sound".to_string()));
    assert!(first.iter().all(|line| !line.contains('\r')), "progress is for terminals");
    assert!(chosen(&first).iter().all(|&units| units > 0), "the search chooses every kind and backs out: {:?}", chosen(&first));
    let files = ["left", "right", "reference", "depth-left-before", "depth-right-before"];
    let files = files.map(|name| made.join(format!("{name}.pgm")));
    let second = numbers(&demo(&run_again(&files, &again)));
    assert_eq!(first.len(), second.len());
    for (one, other) in first.iter().zip(&second) {
        // What is seen from these two seats no file has.
        let known = !one.starts_with("1 ") && !one.starts_with("3 ");
        assert!(if known { one == other } else { other.trim_end().ends_with("not known") }, "{one}\n{other}");
    }
    for (name, largest) in [
        ("seat-0", 1023),
        ("seat-1", 1023),
        ("seat-2", 1023),
        ("seat-3", 1023),
        ("seat-4", 1023),
        ("combined-before", 1023),
        ("combined-after", 1023),
        ("errors-before", 1023),
        ("errors-after", 1023),
        ("holes-left-after", 255),
        ("holes-right-after", 255),
        ("depth-left-after", 255),
        ("depth-right-after", 255),
    ] {
        let read = |folder: &Path| picture(&folder.join(format!("{name}.pgm")), 320, 192);
        assert_eq!(read(&made), read(&again), "{name}");
        assert_eq!(read(&made).0, largest, "{name}");
    }
    let (_, samples) = picture(&made.join("left.pgm"), 320, 192);
    assert!((0..4).all(|bits| samples.iter().any(|sample| sample % 4 == bits)), "the scene has ten bits");
}

/// In the middle row every depth is tried in every column, in both views; the nearest one changes at least a tenth of its bound.
#[test]
fn one_depth_stays_within_its_bound() {
    let numbers = numbers(&demo(&["--out", text(&folder("bound"))]));
    for view in ["left", "right"] {
        let [row, within, trials, depth, column, change, bound, length] = nearest(&numbers, view);
        assert_eq!((row, within, trials), (96, 320 * 256, 320 * 256));
        assert!((0..256).contains(&depth) && (0..320).contains(&column));
        assert_eq!(bound, 1_046_529 * ((length + 3) / 4));
        assert!(bound > 0 && (bound / 10..=bound).contains(&change.abs()), "{view}: {change} of {bound}");
    }
}

/// Two neighbouring units of the middle row of units answer something else in each order, with one sum, in both views.
#[test]
fn two_units_in_both_orders() {
    let numbers = numbers(&demo(&["--out", text(&folder("order"))]));
    for view in ["left", "right"] {
        let [row, a, b, one, then_other, again_b, again_a, other, then_one, sum] = order(&numbers, view);
        assert_eq!((row, b, again_a, again_b), (96, a + 8, a, b));
        assert!(one != then_one && other != then_other, "{view}: the order makes no difference");
        assert_eq!((one + then_other, other + then_one), (sum, sum), "{view}");
    }
}

/// In the middle the seat shows what the search ended with, at a camera nearly that camera's picture; and from seat to seat a near
/// thing goes to the left, as far every time.
#[test]
fn the_seat_moves() {
    let out = folder("seats");
    let numbers = numbers(&demo(&["--out", text(&out)]));
    let (seats, last) = (seats(&numbers), numbers.iter().rfind(|line| line.contains(", round ")).expect("it searches"));
    assert_eq!(seats.iter().map(|cells| cells[0]).collect::<Vec<_>>(), ["0,", "1", "2,", "3", "4,"]);
    assert_eq!(total(&seats[2]), total(&last.split_whitespace().collect::<Vec<_>>()));
    let picture = |name: &str| picture(&out.join(format!("{name}.pgm")), 320, 192).1;
    assert_eq!(picture("seat-2"), picture("combined-after"));
    for (seat, camera) in [("seat-0", "left"), ("seat-4", "right")] {
        let same = picture(seat).iter().zip(picture(camera)).filter(|(shown, seen)| **shown == *seen).count();
        assert!(same > 320 * 192 * 9 / 10, "{seat} and {camera} have {same} samples in common");
    }
    let places: Vec<usize> = (0..5).map(|seat| middle_of_the_pole(&picture(&format!("seat-{seat}")))).collect();
    for step in places.windows(2) {
        assert!((850..1250).contains(&(step[0] - step[1])), "the pole goes by about 10 1/2 columns: {places:?}");
    }
}

/// Where the cameras are too far apart, MOVE refuses a seat and the others are shown.
#[test]
fn seats_that_are_refused() {
    let (folder, (w, h)) = (folder("far"), (24, 8));
    let file = |name: &str, sample: u8| {
        let path = folder.join(name);
        std::fs::write(&path, format!("P2\n{w} {h}\n255\n{}", format!("{sample}\n").repeat(w * h))).expect("the file can be written");
        path
    };
    let files =
        [file("left.pgm", 9), file("right.pgm", 9), file("reference.pgm", 9), file("left-depth.pgm", 3), file("right-depth.pgm", 3)];
    for (disparity, refused) in [("511", false), ("512", true), ("682", true), ("1023", true)] {
        let out = folder.join(disparity);
        let numbers = numbers(&demo(&[&["--disparity", disparity][..], &run_again(&files, &out)].concat()));
        for (seat, cells) in seats(&numbers).into_iter().enumerate() {
            let is_refused = refused && seat % 4 == 0 || disparity == "1023" && seat != 2;
            assert_eq!(cells.contains(&"refused"), is_refused, "{disparity}: {cells:?}");
            assert_eq!(out.join(format!("seat-{seat}.pgm")).exists(), !is_refused, "{disparity}, seat {seat}");
        }
        assert_eq!(numbers.iter().filter(|line| *line == "check   sound").count(), 2);
    }
}

/// Pictures of every number of bits up to ten: what is written goes up to the same sample, although the filter passes it.
#[test]
fn pictures_of_fewer_bits() {
    let (w, h) = (24, 8);
    for largest in [1_u16, 15, 255, 256, 511, 1023] {
        let folder = folder(&format!("up-to-{largest}"));
        let plain = |name: &str, largest: u16, sample: &dyn Fn(usize, usize) -> u16| {
            let samples: String = (0..w * h).map(|at| format!("{}\n", sample(at % w, at / w))).collect();
            let path = folder.join(name);
            std::fs::write(&path, format!("P2\n{w} {h}\n{largest}\n{samples}")).expect("the file can be written");
            path
        };
        let edges = |x: usize, y: usize| if (x / 3 + y / 2) % 2 == 0 { 0 } else { largest };
        let files = [
            plain("left.pgm", largest, &edges),
            plain("right.pgm", largest, &edges),
            plain("reference.pgm", largest, &edges),
            plain("left-depth.pgm", 255, &|x, _| 2 * (x / 8) as u16 + 5),
            plain("right-depth.pgm", 15, &|_, _| 6),
        ];
        let out = folder.join("out");
        assert!(numbers(&demo(&run_again(&files, &out))).contains(&"check   sound".to_string()));
        let read = |name: &str| picture(&out.join(name), w, h);
        assert_eq!(read("left.pgm"), (largest, (0..w * h).map(|at| edges(at % w, at / w)).collect()));
        for (name, written) in [("combined-before.pgm", largest), ("errors-before.pgm", largest), ("depth-left-before.pgm", 255)] {
            let (up_to, samples) = read(name);
            assert_eq!(up_to, written, "{name}");
            assert!(samples.iter().all(|&sample| sample <= written), "{name}");
        }
        let (_, combined) = read("combined-before.pgm");
        assert!(combined.contains(&largest) && combined.contains(&0));
    }
}

#[test]
fn files_that_cannot_be_taken() {
    let folder = folder("wrong");
    let file = |name: &str, bytes: &[u8]| {
        let path = folder.join(name);
        std::fs::write(&path, bytes).expect("the file can be written");
        text(&path).to_string()
    };
    let good = file("good.pgm", b"P5\n3 2\n255\nabcdef");
    let short = file("short.pgm", b"P5\n3 2\n255\nabcde");
    let tall = file("tall.pgm", b"P2\n2 3\n255\n1 2 3 4 5 6\n");
    let other = file("other.txt", b"depths\n");
    let deep = file("deep.pgm", b"P5\n3 2\n1023\n\0a\0b\0c\0d\0e\0f");
    let deeper = file("deeper.pgm", b"P5\n3 2\n4095\n\0a\0b\0c\0d\0e\0f");
    let missing = text(&folder.join("missing.pgm")).to_string();
    for (file, what) in [
        (&missing, format!("demo: {missing} cannot be read: ")),
        (&short, format!("demo: {short} is damaged: 5 bytes of samples where 6 are needed\n")),
        (&tall, format!("demo: {tall} is 2 × 3, but {good} is 3 × 2: all five must have one size\n")),
        (&other, format!("demo: {other} is not a PGM picture: it begins with neither P5 nor P2\n")),
        (&deep, format!("demo: {deep} has samples up to 1023: depths up to 255 are taken\n")),
        (&deeper, format!("demo: {deeper} has samples up to 4095: samples up to 1,023 are taken\n")),
    ] {
        assert_refused(&[&good, &good, &good, file, &good], &what);
        assert_refused(&[&good, &good, &good, &good, file], &what);
    }
    for files in [[&good, &deep, &good], [&good, &good, &deep]] {
        let what =
            format!("demo: {deep} has samples up to 1023, but {good} up to 255: left, right and reference must have one largest value\n");
        assert_refused(&[files[0], files[1], files[2], &good, &good], &what);
    }
    let out = folder.join("out");
    for picture in [&good, &deep] {
        assert!(demo(&["--out", text(&out), picture, picture, picture, &good, &good]).status.success());
    }
}

/// The program says what is wrong and nothing else.
fn assert_refused(arguments: &[&str], what: &str) {
    let output = demo(arguments);
    assert_eq!(output.status.code(), Some(1));
    let said = String::from_utf8_lossy(&output.stderr);
    assert!(said.starts_with(what), "{said}");
    assert!(output.stdout.is_empty());
}

#[test]
fn arguments_that_cannot_be_taken() {
    for (arguments, what) in [
        (&["a.pgm", "b.pgm"][..], "demo: 2 files, but five are needed"),
        (&["--out"], "demo: --out needs a folder\n"),
        (&["--disparity", "1024"], "demo: --disparity needs a number from 0 to 1023\n"),
        (&["--fast"], "demo: --fast is not an option (see --help)\n"),
    ] {
        assert_refused(arguments, what);
    }
    let help = demo(&["--help"]);
    assert!(help.status.success() && String::from_utf8_lossy(&help.stdout).starts_with("usage: demo"));
}
