//! Times the proved library beside plain Rust on the same inputs, in one run, each the best of several turns.
use bench::plain::{self, Rule};
use bench::proved::{self, CrossingTable, DfaRow};
use bench::random::Random;
use std::hint::black_box;
use std::time::Instant;

const TURNS: usize = 7;

/// The best time of some turns, in seconds.
fn best(mut work: impl FnMut()) -> f64 {
    (0..TURNS)
        .map(|_| {
            let start = Instant::now();
            work();
            start.elapsed().as_secs_f64()
        })
        .fold(f64::INFINITY, f64::min)
}

fn tell(what: &str, proved: f64, plain: f64, unit: f64, name: &str) {
    println!("{what:44} {:10.2} {:10.2} {name:10} {:5.2}", proved * unit, plain * unit, proved / plain);
}

fn fold(sheet: &[u8], tables: &mut [CrossingTable], dfa: &mut [DfaRow], out: &mut [u8]) -> usize {
    proved::fold(sheet, tables, dfa, out).map_or_else(|e| panic!("refused by {}", e.number), |length| length)
}

fn main() {
    let mut random = Random(0x1234_5678_9abc_def1);
    let mut tables = vec![CrossingTable([255; 33]); 4096];
    let mut dfa = vec![DfaRow { cells: [0; 16], verdict: 0 }; 4096];
    let mut out = vec![0; 1 << 20];
    println!("{:44} {:>10} {:>10} {:10} {:>5}", "what", "proved", "plain", "unit", "ratio");

    let twelve = Rule::distance(12, 2, 1);
    let (sheet, rule) = twelve.sheet(&mut random);
    let rows = rule.fold_by_search(4096).unwrap().len();
    let p = best(|| { black_box(fold(&sheet, &mut tables, &mut dfa, &mut out)); });
    tell("build, 4,096 rows, 2 letters: same search", p, best(|| { black_box(rule.fold_by_search(4096)); }), 1e3, "ms");
    tell("build, 4,096 rows, 2 letters: hash index", p, best(|| { black_box(rule.fold(4096)); }), 1e3, "ms");
    assert_eq!(rows, 4096);

    let three = Rule::distance(3, 15, 0b101_0101_0101_0101);
    let (wide_sheet, wide) = three.sheet(&mut random);
    let p = best(|| { black_box(fold(&wide_sheet, &mut tables, &mut dfa, &mut out)); });
    let wide_rows = wide.fold_by_search(4096).unwrap().len();
    tell(&format!("build, {wide_rows} rows, 15 letters: same search"), p, best(|| { black_box(wide.fold_by_search(4096)); }), 1e3, "ms");

    let (sheet, rule) = Rule::distance(10, 2, 1).sheet(&mut random);
    fold(&sheet, &mut tables, &mut dfa, &mut out);
    let used = rule.fold(4096).unwrap().1.len();
    for length in [64, 1_000, 60_000] {
        let word: Vec<u8> = (0..length).map(|_| random.below(2) as u8).collect();
        let turns = 6_000_000 / length;
        let unit = 1e9 / (turns * length) as f64;
        let p = best(|| (0..turns).for_each(|_| { black_box(proved::ask(2, used, black_box(&dfa), &word)).unwrap(); }));
        let same = best(|| (0..turns).for_each(|_| { black_box(plain::ask(2, used, black_box(&dfa), &word)).unwrap(); }));
        let bare = best(|| (0..turns).for_each(|_| { black_box(plain::ask_unchecked(2, black_box(&dfa), &word)); }));
        tell(&format!("ask, {length} marks, 2 letters: same checks"), p, same, unit, "ns a mark");
        tell(&format!("ask, {length} marks, 2 letters: no checks"), p, bare, unit, "ns a mark");
    }

    let (sheet, rule) = Rule::distance(20, 2, 1).sheet(&mut random);
    let word: Vec<u8> = (0..60_000).map(|_| random.below(2) as u8).collect();
    let steps = rule.walk(&word).steps as f64;
    let p = best(|| (0..50).for_each(|_| { black_box(proved::walk(&sheet, &word)).unwrap(); }));
    tell("walk, 60,000 marks: plain interpreter", p, best(|| (0..50).for_each(|_| { black_box(rule.walk_counting(&word)); })), 1e9 / 50.0 / steps, "ns a step");

    let full = Rule::any(&mut random, 32, 16);
    let (sheet, _) = full.sheet(&mut random);
    let p = best(|| (0..200).for_each(|_| { let _ = black_box(proved::walk(black_box(&sheet), &[])); }));
    let q = best(|| (0..200).for_each(|_| { let _ = black_box(plain::read_sheet(black_box(&sheet))); }));
    tell(&format!("read a sheet of {} bytes", sheet.len()), p, q, 1e9 / 200.0 / sheet.len() as f64, "ns a byte");
}
