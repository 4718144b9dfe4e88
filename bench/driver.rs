//! Times the library's calls beside the same calls in plain Rust, in plain C and in the strongest C.
//! `driver time FILE [quick]` times them all once and writes a line for each to FILE; progress goes to standard error.
//! `driver tell FOLDER ABOUT MACHINE FILE..` takes the medians over such files, and writes to FOLDER benchmarks.csv (all of them),
//! benchmarks.svg (time against length) and BENCHMARKS.md: what ABOUT says, with the tables in their places and MACHINE said. It
//! tells which bars are broken, and fails if any is.

mod agree;
mod bars;
mod baseline;
mod calls;
mod catalogues;
mod forms;
mod lines;
mod picture;
mod rows;
mod timing;

use rows::{Rows, CLASS_SHAPES, COLLIDING, LENGTHS, SHAPES};
use timing::{medians, Bench, Measured};

fn time_all(quick: bool) -> Vec<Measured> {
    let (rounds, batch) = if quick { (11, 150_000.0) } else { (15, 200_000.0) };
    let mut bench = Bench { rounds, batch, measured: Vec::new() };
    agree::short_forms();
    for shape in SHAPES {
        let rows = Rows::new(shape, LENGTHS.to_vec());
        // room for the longer row within 16,384
        let roomy = Rows::new(shape, LENGTHS.map(|n| n.min(16384 - 8)).to_vec());
        agree::agree(&rows);
        lines::kept(&mut bench, &rows);
        lines::ends(&mut bench, &rows);
        lines::searches(&mut bench, &rows);
        lines::sheets(&mut bench, &rows);
        lines::sheets_twice(&mut bench, &Rows::new(shape, vec![4096, 16384]));
        lines::plain(&mut bench, &rows);
        lines::refusals(&mut bench, &rows);
        lines::replacements(&mut bench, &roomy);
        lines::wide_alphabet(&mut bench, &Rows::new(shape, vec![256]));
        lines::exported(&mut bench, &roomy);
        agree::forms(&rows);
        lines::forms(&mut bench, &rows);
    }
    for shape in CLASS_SHAPES.into_iter().chain(COLLIDING) {
        let rows = Rows::new(shape, LENGTHS.to_vec());
        agree::agree(&rows);
        lines::kept(&mut bench, &rows);
        lines::ends(&mut bench, &rows);
    }
    lines::slowest(&mut bench);
    time_catalogues(&mut bench);
    bench.measured
}

fn time_catalogues(bench: &mut Bench) {
    agree::faulty_catalogues();
    for shape in catalogues::SHAPES {
        for symbols in catalogues::ALPHABETS {
            for size in catalogues::SIZES {
                let all = catalogues::Catalogues::new(shape, symbols, size);
                agree::catalogues(&all);
                lines::catalogues(bench, &all);
            }
        }
    }
}

/// Writes what was measured; are all bars kept?
fn tell(folder: &std::path::Path, about: &str, machine: &str, all: &[Measured]) -> bool {
    let write = |file: &str, text: String| std::fs::write(folder.join(file), text).expect("a file of results");
    let said = [
        ("machine", machine.to_string()),
        ("bars", bars::bars(all)),
        ("exported", bars::exported(all)),
        ("notation", bars::notation(all) + "\n" + &picture::notation(all)),
        ("catalogue", bars::catalogue(all) + "\n" + &picture::files(all)),
        ("hops", picture::hops(all)),
        ("calls", picture::calls(all)),
    ];
    let page = |page: String, (place, text): &(&str, String)| page.replace(&format!("{{{place}}}"), text.trim_end());
    write("BENCHMARKS.md", said.iter().fold(about.to_string(), page));
    write("benchmarks.csv", all.iter().fold(Measured::HEADER.to_string(), |text, m| text + &m.line()));
    write("benchmarks.svg", picture::lines(all));
    let broken = bars::broken(all);
    eprint!("{broken}");
    broken.is_empty()
}

fn main() -> std::process::ExitCode {
    let words: Vec<String> = std::env::args().skip(1).collect();
    let words: Vec<&str> = words.iter().map(String::as_str).collect();
    let read = |file: &str| std::fs::read_to_string(file).expect("a file to read");
    match words[..] {
        ["time", file, ref rest @ ..] => {
            let lines: String = time_all(rest.contains(&"quick")).iter().map(Measured::line).collect();
            std::fs::write(file, lines).expect("the file of times");
            std::process::ExitCode::SUCCESS
        }
        ["tell", folder, about, machine, ref files @ ..] => {
            let turns: Vec<Vec<Measured>> = files.iter().map(|file| read(file).lines().map(Measured::of_line).collect()).collect();
            let kept = tell(std::path::Path::new(folder), &read(about), machine, &medians(&turns));
            std::process::ExitCode::from(!kept as u8)
        }
        _ => panic!("usage: driver time FILE [quick], driver tell FOLDER ABOUT MACHINE FILE.."),
    }
}
