//! Sets the proved library against the plain implementation: sheets good and damaged, memory short and long, rows sound and damaged.
//! Prints what was compared, and every mismatch with all that is needed to repeat it.
use bench::plain::{self, Rule};
use bench::proved::{self, CrossingTable, DfaRow};
use bench::random::Random;

#[derive(Default)]
struct Tally {
    folds: u64,
    refused_folds: u64,
    walks: u64,
    asks: u64,
    damaged_asks: u64,
    damaged_sheets: u64,
    mismatches: u64,
}

impl Tally {
    fn compare<T: PartialEq + std::fmt::Debug>(&mut self, what: &str, proved: T, plain: T, sheet: &[u8], more: &str) {
        if proved != plain {
            self.mismatches += 1;
            println!("mismatch\t{what}\nproved {proved:?}\nplain  {plain:?}\n{more}\n{}", String::from_utf8_lossy(sheet));
        }
    }
}

fn any_word(random: &mut Random, letters: usize) -> Vec<u8> {
    let length = match random.below(10) {
        0 => 0,
        1 => 200 + random.below(200),
        _ => random.below(16),
    };
    (0..length).map(|_| if random.below(50) == 0 { random.below(256) as u8 } else { random.below(letters) as u8 }).collect()
}

/// What the proved fold leaves is the listing, the rows and tables, and everything else as it was.
fn compare_fold(sheet: &[u8], rule: &Rule, random: &mut Random, tally: &mut Tally) -> Option<Vec<DfaRow>> {
    let lengths = [0, 1, 3, 16, 200, 600];
    let mut tables = vec![CrossingTable([7; 33]); random.pick(&lengths)];
    let mut dfa = vec![DfaRow { cells: [9; 16], verdict: 9 }; random.pick(&lengths)];
    let mut out = vec![b'.'; random.pick(&[0, 20, 300, 60_000])];
    let places = tables.len().min(dfa.len()).min(4096);
    let answer = proved::fold(sheet, &mut tables, &mut dfa, &mut out);
    tally.folds += 1;
    let (mut t, mut d, mut o) = (vec![CrossingTable([7; 33]); tables.len()], vec![DfaRow { cells: [9; 16], verdict: 9 }; dfa.len()], vec![b'.'; out.len()]);
    let expected = match rule.fold(places) {
        None => {
            t[..places].fill(CrossingTable([255; 33]));
            d[..places].fill(DfaRow { cells: [0; 16], verdict: 0 });
            Err(14)
        }
        Some((keys, rows)) => {
            t[..keys.len()].copy_from_slice(&keys);
            d[..rows.len()].copy_from_slice(&rows);
            let text = plain::listing(rule.letters, &rows);
            if text.len() > o.len() {
                Err(19)
            } else {
                o[..text.len()].copy_from_slice(&text);
                Ok(text.len())
            }
        }
    };
    tally.refused_folds += expected.is_err() as u64;
    tally.compare("fold", answer.map_err(|e| e.number), expected, sheet, "");
    tally.compare("fold's memory", (&tables, &dfa, &out), (&t, &d, &o), sheet, "");
    rule.fold(600).map(|f| f.1)
}

fn compare_asks(letters: u8, rows: &[DfaRow], word: &[u8], verdict: u8, sheet: &[u8], random: &mut Random, tally: &mut Tally) {
    tally.asks += 1;
    let more = format!("word {word:?}");
    tally.compare("ask", proved::ask(letters, rows.len(), rows, word), Ok(verdict), sheet, &more);
    if random.below(4) > 0 {
        return;
    }
    let mut damaged = rows.to_vec();
    let (mut used, mut wide) = (rows.len(), letters);
    match random.below(5) {
        0 => used = random.below(rows.len() + 3),
        1 => wide = random.below(20) as u8,
        2 => drop(damaged.truncate(random.below(rows.len() + 1))),
        3 => damaged[random.below(rows.len())].verdict = random.below(6) as u8,
        _ => damaged[random.below(rows.len())].cells[random.below(16)] = random.below(rows.len() + 2) as u16,
    }
    tally.damaged_asks += 1;
    tally.compare("ask of damaged rows", proved::ask(wide, used, &damaged, word), plain::ask(wide, used, &damaged, word), sheet, &more);
}

fn compare_damaged_sheet(sheet: &[u8], random: &mut Random, tally: &mut Tally) {
    let mut text = sheet.to_vec();
    for _ in 0..1 + random.below(2) {
        let at = random.below(text.len().max(1)).min(text.len().saturating_sub(1));
        match random.below(6) {
            0 if !text.is_empty() => text[at] = random.pick(b"\t\n<>0179LRsa\x00\xff"),
            1 if !text.is_empty() => drop(text.remove(at)),
            2 => text.insert(at, random.pick(b"\t\n<>0179LRsa")),
            3 => text.truncate(at),
            4 => {
                let mut lines: Vec<Vec<u8>> = text.split_inclusive(|b| *b == b'\n').map(<[u8]>::to_vec).collect();
                if !lines.is_empty() {
                    let (i, j) = (random.below(lines.len()), random.below(lines.len()));
                    if random.below(2) == 0 { lines.swap(i, j) } else { lines[i] = lines[j].clone() }
                }
                text = lines.concat();
            }
            _ if random.below(40) == 0 => text.extend(vec![b'\n'; 32_769]),
            _ => {}
        }
    }
    tally.damaged_sheets += 1;
    let expected = plain::read_sheet(&text).map(|rule| rule.walk(b"\x00\x01"));
    tally.compare("a damaged sheet", proved::walk(&text, b"\x00\x01"), expected, &text, "");
}

fn main() {
    let rules: usize = std::env::args().nth(1).map_or(22_000, |n| n.parse().expect("a number of rules"));
    let seed: u64 = std::env::args().nth(2).map_or(1, |n| n.parse().expect("a seed"));
    let mut random = Random(seed.wrapping_mul(0x9e37_79b9_7f4a_7c15) | 1);
    let mut tally = Tally::default();
    for round in 0..rules {
        let drawn = match round % 4 {
            0 => Rule::any(&mut random, 5, 3),
            1 => Rule::any(&mut random, 8, 16),
            _ => Rule::any(&mut random, 6, 4),
        };
        let (sheet, rule) = drawn.sheet(&mut random);
        let rows = compare_fold(&sheet, &rule, &mut random, &mut tally);
        for _ in 0..50 {
            let word = any_word(&mut random, rule.letters);
            let expected = rule.walk(&word);
            tally.walks += 1;
            tally.compare("walk", proved::walk(&sheet, &word), Ok(expected), &sheet, &format!("word {word:?}"));
            if let Some(rows) = &rows {
                compare_asks(rule.letters as u8, rows, &word, expected.verdict, &sheet, &mut random, &mut tally);
            }
        }
        for _ in 0..5 {
            compare_damaged_sheet(&sheet, &mut random, &mut tally);
        }
    }
    let long = vec![0; 65_537];
    let (sheet, rule) = Rule::any(&mut random, 4, 2).sheet(&mut random);
    tally.compare("the longest word", proved::walk(&sheet, &long[1..]), Ok(rule.walk(&long[1..])), &sheet, "");
    tally.compare("too long a word", proved::walk(&sheet, &long).map_err(|e| e.number), Err(15), &sheet, "");
    println!(
        "rules\t{rules}\nfolds\t{}\t({} refused)\nwalks\t{}\nasks\t{}\ndamaged asks\t{}\ndamaged sheets\t{}\nmismatches\t{}",
        tally.folds, tally.refused_folds, tally.walks, tally.asks, tally.damaged_asks, tally.damaged_sheets, tally.mismatches
    );
    std::process::exit((tally.mismatches > 0) as i32);
}
