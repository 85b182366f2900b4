//! Rules, sheets, tables, walks and asks in plain Rust, from their descriptions alone.
use crate::proved::{CrossingTable, DfaRow, Place, Refused, Walk};
use crate::random::Random;
use std::collections::HashMap;

#[derive(Clone, Debug)]
pub struct Rule {
    pub states: usize,
    pub letters: usize,
    pub start: usize,
    pub accept: usize,
    pub reject: usize,
    /// next state and whether it goes right, for each state and column
    pub next: Vec<Vec<(usize, bool)>>,
}

impl Rule {
    /// Any rule: each step leads anywhere, but the ends turn back.
    pub fn any(random: &mut Random, most_states: usize, most_letters: usize) -> Rule {
        let states = 2 + random.below(most_states - 1);
        let letters = 1 + random.below(most_letters);
        let accept = random.below(states);
        let reject = (accept + 1 + random.below(states - 1)) % states;
        let mut next = vec![vec![(0, false); letters + 2]; states];
        for (q, row) in next.iter_mut().enumerate() {
            for (c, step) in row.iter_mut().enumerate() {
                let right = if c == letters { true } else if c == letters + 1 { false } else { random.below(2) == 1 };
                *step = if q == accept || q == reject { (q, c <= letters) } else { (random.below(states), right) };
            }
        }
        Rule { states, letters, start: random.below(states), accept, reject, next }
    }

    /// The mark at a distance from the end is in the set.
    pub fn distance(distance: usize, letters: usize, set: u16) -> Rule {
        let (accept, reject) = (distance + 1, distance + 2);
        let step = |q: usize, c: usize| {
            let right = c <= letters;
            match q {
                0 => if right { (0, true) } else { (1, false) },
                q if q > distance => (q, right),
                _ if c >= letters => (reject, right),
                q if q < distance => (q + 1, false),
                _ => (if set >> c & 1 == 1 { accept } else { reject }, true),
            }
        };
        let next = (0..distance + 3).map(|q| (0..letters + 2).map(|c| step(q, c)).collect()).collect();
        Rule { states: distance + 3, letters, start: 0, accept, reject, next }
    }

    /// The run with no memory of configurations: a loop is seen by the most steps that a run takes.
    pub fn walk_counting(&self, word: &[u8]) -> Walk {
        let most = ((self.states - 2) * (word.len() + 2)) as u32;
        let (mut state, mut place) = (self.start, 0usize);
        for steps in 0..=most {
            if state == self.accept {
                return Walk { verdict: 1, steps };
            }
            if state == self.reject {
                return Walk { verdict: 2, steps };
            }
            let (to, right) = self.next[state][self.column(word, place)];
            state = to;
            place = if right { place + 1 } else { place - 1 };
        }
        Walk { verdict: 3, steps: most }
    }

    /// Its sheet, with the entries in any order, and the rule with the states numbered as the sheet names them.
    pub fn sheet(&self, random: &mut Random) -> (Vec<u8>, Rule) {
        let name = |q: usize| format!("s{q}");
        let mut entries = Vec::new();
        for q in (0..self.states).filter(|q| *q != self.accept && *q != self.reject) {
            for c in 0..self.letters + 2 {
                entries.push((q, c));
            }
        }
        for i in (1..entries.len()).rev() {
            entries.swap(i, random.below(i + 1));
        }
        let mut order = Vec::new();
        let mut see = |q: usize| if !order.contains(&q) { order.push(q) };
        for q in [self.start, self.accept, self.reject] {
            see(q);
        }
        let mut text = format!("rule\t{}\t{}\t{}\t{}\n", self.letters, name(self.start), name(self.accept), name(self.reject));
        for (q, c) in entries {
            let (to, right) = self.next[q][c];
            see(q);
            see(to);
            let column = if c == self.letters { "<".into() } else if c == self.letters + 1 { ">".into() } else { c.to_string() };
            text += &format!("at\t{}\t{column}\t{}\t{}\n", name(q), name(to), if right { "R" } else { "L" });
        }
        let at = |q: usize| order.iter().position(|o| *o == q).unwrap();
        let next = order.iter().map(|q| self.next[*q].iter().map(|(to, right)| (at(*to), *right)).collect()).collect();
        let rule = Rule {
            states: order.len(), letters: self.letters,
            start: at(self.start), accept: at(self.accept), reject: at(self.reject), next,
        };
        (text.into_bytes(), rule)
    }

    fn column(&self, word: &[u8], place: usize) -> usize {
        if place == 0 { self.letters } else { word.get(place - 1).map_or(self.letters + 1, |b| (*b as usize).min(self.letters - 1)) }
    }

    /// The run itself; a loop is seen when a configuration comes again.
    pub fn walk(&self, word: &[u8]) -> Walk {
        let mut met = vec![false; self.states * (word.len() + 2)];
        let (mut state, mut place, mut steps) = (self.start, 0usize, 0u32);
        loop {
            if state == self.accept {
                return Walk { verdict: 1, steps };
            }
            if state == self.reject {
                return Walk { verdict: 2, steps };
            }
            let here = &mut met[place * self.states + state];
            if *here {
                return Walk { verdict: 3, steps: ((self.states - 2) * (word.len() + 2)) as u32 };
            }
            *here = true;
            let (to, right) = self.next[state][self.column(word, place)];
            state = to;
            place = if right { place + 1 } else { place - 1 };
            steps += 1;
        }
    }

    /// The answer of one letter more: from `p` on the letter, over the table of the word before.
    fn cross(&self, before: &[u8; 33], letter: usize, mut p: usize) -> u8 {
        let mut met = [false; 32];
        while !met[p] {
            met[p] = true;
            let (to, right) = self.next[p][letter];
            if right {
                return to as u8;
            }
            match before[to] {
                255 => return 255,
                q => p = q as usize,
            }
        }
        255
    }

    pub fn empty_table(&self) -> [u8; 33] {
        let mut table = [255; 33];
        for q in 0..self.states {
            table[q] = self.next[q][self.letters].0 as u8;
        }
        table[32] = table[self.start];
        table
    }

    pub fn extended(&self, before: &[u8; 33], letter: usize) -> [u8; 33] {
        let mut table = [255; 33];
        for q in 0..self.states {
            table[q] = self.cross(before, letter, q);
        }
        if before[32] != 255 {
            table[32] = table[before[32] as usize];
        }
        table
    }

    pub fn verdict(&self, table: &[u8; 33]) -> u8 {
        let mut met = [false; 32];
        let mut state = table[32];
        while state != 255 && !met[state as usize] {
            met[state as usize] = true;
            if state as usize == self.accept {
                return 1;
            }
            if state as usize == self.reject {
                return 2;
            }
            state = table[self.next[state as usize][self.letters + 1].0];
        }
        3
    }

    /// The same by the library's own algorithm: each new table is looked for among all rows, one after another.
    pub fn fold_by_search(&self, places: usize) -> Option<Vec<DfaRow>> {
        let mut tables = vec![self.empty_table()];
        let mut rows = Vec::new();
        let mut at = 0;
        while at < tables.len() {
            let mut cells = [0; 16];
            for (letter, cell) in cells.iter_mut().enumerate().take(self.letters) {
                let table = self.extended(&tables[at], letter);
                let place = match tables.iter().position(|t| *t == table) {
                    Some(place) => place,
                    None if tables.len() == places => return None,
                    None => {
                        tables.push(table);
                        tables.len() - 1
                    }
                };
                *cell = place as u16;
            }
            rows.push(DfaRow { cells, verdict: self.verdict(&tables[at]) });
            at += 1;
        }
        Some(rows)
    }

    /// The tables and rows of the rule, found with an index; none where there are more than the places.
    pub fn fold(&self, places: usize) -> Option<(Vec<CrossingTable>, Vec<DfaRow>)> {
        let mut tables = vec![self.empty_table()];
        let mut index = HashMap::from([(tables[0], 0usize)]);
        let mut rows = Vec::new();
        let mut at = 0;
        while at < tables.len() {
            if tables.len() > places {
                return None;
            }
            let mut cells = [0; 16];
            for (letter, cell) in cells.iter_mut().enumerate().take(self.letters) {
                let table = self.extended(&tables[at], letter);
                let next = tables.len();
                let place = *index.entry(table).or_insert(next);
                if place == next {
                    tables.push(table);
                }
                *cell = place as u16;
            }
            rows.push(DfaRow { cells, verdict: self.verdict(&tables[at]) });
            at += 1;
        }
        if tables.len() > places { None } else { Some((tables.into_iter().map(CrossingTable).collect(), rows)) }
    }
}

pub fn listing(letters: usize, rows: &[DfaRow]) -> Vec<u8> {
    let mut text = format!("shelf\t{}\t{letters}\n", rows.len());
    for (i, row) in rows.iter().enumerate() {
        text += &format!("row\t{i}\t{}", row.verdict);
        for cell in &row.cells[..letters] {
            text += &format!("\t{cell}");
        }
        text.push('\n');
    }
    text.into_bytes()
}

fn sound(letters: usize, rows: usize, row: &DfaRow) -> bool {
    row.cells[..letters].iter().all(|c| (*c as usize) < rows) && (1..=3).contains(&row.verdict)
}

/// Each mark once, with a look at every row met.
pub fn ask(letters: u8, rows: usize, dfa: &[DfaRow], marks: &[u8]) -> Result<u8, u8> {
    let letters = letters.clamp(1, 16) as usize;
    if rows == 0 {
        return Err(13);
    }
    if dfa.len() < rows {
        return Err(16);
    }
    let mut row = &dfa[0];
    for mark in marks {
        if !sound(letters, rows, row) {
            return Err(16);
        }
        row = &dfa[row.cells[(*mark as usize).min(letters - 1)] as usize];
    }
    if sound(letters, rows, row) { Ok(row.verdict) } else { Err(16) }
}

/// The same with no check at all.
pub fn ask_unchecked(letters: u8, dfa: &[DfaRow], marks: &[u8]) -> u8 {
    let last = letters.clamp(1, 16) - 1;
    let mut row = 0;
    for mark in marks {
        row = dfa[row].cells[(*mark).min(last) as usize] as usize;
    }
    dfa[row].verdict
}

fn refused(number: u8, line: usize, field: u8) -> Refused {
    Refused { number, place: Place { line: line as u32, field } }
}

fn number(text: &[u8], most: usize) -> Option<usize> {
    if text.is_empty() || text.len() > 3 || (text.len() > 1 && text[0] == b'0') || !text.iter().all(u8::is_ascii_digit) {
        return None;
    }
    let value = text.iter().fold(0, |n, b| n * 10 + (b - b'0') as usize);
    (value <= most).then_some(value)
}

/// A sheet read by the table of conditions, line by line and number by number.
pub fn read_sheet(sheet: &[u8]) -> Result<Rule, Refused> {
    if sheet.len() > 32_768 {
        return Err(refused(1, 0, 0));
    }
    if sheet.is_empty() {
        return Err(refused(2, 1, 0));
    }
    let mut lines: Vec<&[u8]> = sheet.split(|b| *b == b'\n').collect();
    let ended = lines.pop().unwrap().is_empty();
    let last = lines.len();
    if !ended {
        lines.push(&sheet[sheet.iter().rposition(|b| *b == b'\n').map_or(0, |at| at + 1)..]);
    }
    let (mut names, mut steps) = (Vec::<Vec<u8>>::new(), HashMap::<(Vec<u8>, usize), (Vec<u8>, bool)>::new());
    let (mut letters, mut start, mut accept, mut reject) = (0, Vec::new(), Vec::new(), Vec::new());
    let short = |f: &[u8]| f.is_empty() || f.len() > 16;
    for (i, line) in lines.iter().enumerate() {
        let at = i + 1;
        let f: Vec<&[u8]> = line.split(|b| *b == b'\t').collect();
        let word: &[u8] = if i == 0 { b"rule" } else { b"at" };
        if f.len() != 5 || f[0] != word || (!ended && i == last) {
            return Err(refused(2, at, 0));
        }
        let named: &[usize] = if i == 0 { &[2, 3, 4] } else { &[1, 3] };
        if let Some(field) = named.iter().find(|n| short(f[**n])) {
            return Err(refused(3, at, *field as u8 + 1));
        }
        if i == 0 {
            letters = number(f[1], 16).filter(|m| *m > 0).ok_or(refused(4, at, 2))?;
            if f[3] == f[4] {
                return Err(refused(6, at, 5));
            }
            (start, accept, reject) = (f[2].to_vec(), f[3].to_vec(), f[4].to_vec());
            for n in [&start, &accept, &reject] {
                if !names.contains(n) {
                    names.push(n.clone());
                }
            }
            continue;
        }
        let column = match f[2] {
            b"<" => letters,
            b">" => letters + 1,
            text => number(text, letters - 1).ok_or(refused(4, at, 3))?,
        };
        let right = match f[4] {
            b"L" => false,
            b"R" => true,
            _ => return Err(refused(5, at, 5)),
        };
        if f[1] == accept || f[1] == reject {
            return Err(refused(7, at, 2));
        }
        for n in [1, 3] {
            if !names.iter().any(|x| x == f[n]) {
                if names.len() == 32 {
                    return Err(refused(8, at, n as u8 + 1));
                }
                names.push(f[n].to_vec());
            }
        }
        if (column == letters && !right) || (column == letters + 1 && right) {
            return Err(refused(9, at, 5));
        }
        if steps.insert((f[1].to_vec(), column), (f[3].to_vec(), right)).is_some() {
            return Err(refused(10, at, 3));
        }
    }
    let state = |n: &[u8]| names.iter().position(|x| x == n).unwrap();
    let mut next = Vec::new();
    for (q, name) in names.iter().enumerate() {
        let mut row = Vec::new();
        for c in 0..letters + 2 {
            if *name == accept || *name == reject {
                row.push((q, c <= letters));
            } else {
                let (to, right) = steps.get(&(name.clone(), c)).ok_or(refused(11, lines.len() + 1, 0))?;
                row.push((state(to), *right));
            }
        }
        next.push(row);
    }
    Ok(Rule { states: names.len(), letters, start: state(&start), accept: state(&accept), reject: state(&reject), next })
}
