//! The proved library. Nothing checks these declarations against its source, so they are few and plain.
#[repr(C)]
#[derive(Clone, Copy, PartialEq, Debug)]
pub struct DfaRow {
    pub cells: [u16; 16],
    pub verdict: u8,
}

#[repr(C)]
#[derive(Clone, Copy, PartialEq, Debug)]
pub struct CrossingTable(pub [u8; 33]);

#[repr(C)]
#[derive(Clone, Copy, PartialEq, Debug, Default)]
pub struct Place {
    pub line: u32,
    pub field: u8,
}

#[repr(C)]
#[derive(Clone, Copy, PartialEq, Debug, Default)]
pub struct Walk {
    pub verdict: u8,
    pub steps: u32,
}

unsafe extern "C" {
    fn cetskvali_fold(
        sheet: *const u8, sheet_len: usize,
        tables: *mut CrossingTable, tables_len: usize,
        dfa: *mut DfaRow, dfa_len: usize,
        out: *mut u8, out_len: usize,
        length: *mut usize, place: *mut Place,
    ) -> u8;
    fn cetskvali_ask(
        letters: u8, rows: usize,
        dfa: *const DfaRow, dfa_len: usize,
        marks: *const u8, marks_len: usize,
        verdict: *mut u8,
    ) -> u8;
    fn cetskvali_walk(
        sheet: *const u8, sheet_len: usize,
        marks: *const u8, marks_len: usize,
        walk: *mut Walk, place: *mut Place,
    ) -> u8;
}

/// A refusal: its number and place.
#[derive(Clone, Copy, PartialEq, Debug)]
pub struct Refused {
    pub number: u8,
    pub place: Place,
}

pub fn fold(sheet: &[u8], tables: &mut [CrossingTable], dfa: &mut [DfaRow], out: &mut [u8]) -> Result<usize, Refused> {
    let mut length = 0;
    let mut place = Place::default();
    let number = unsafe {
        cetskvali_fold(
            sheet.as_ptr(), sheet.len(), tables.as_mut_ptr(), tables.len(), dfa.as_mut_ptr(), dfa.len(),
            out.as_mut_ptr(), out.len(), &mut length, &mut place,
        )
    };
    if number == 0 { Ok(length) } else { Err(Refused { number, place }) }
}

pub fn ask(letters: u8, rows: usize, dfa: &[DfaRow], marks: &[u8]) -> Result<u8, u8> {
    let mut verdict = 0;
    let number = unsafe { cetskvali_ask(letters, rows, dfa.as_ptr(), dfa.len(), marks.as_ptr(), marks.len(), &mut verdict) };
    if number == 0 { Ok(verdict) } else { Err(number) }
}

pub fn walk(sheet: &[u8], marks: &[u8]) -> Result<Walk, Refused> {
    let mut walk = Walk::default();
    let mut place = Place::default();
    let number = unsafe { cetskvali_walk(sheet.as_ptr(), sheet.len(), marks.as_ptr(), marks.len(), &mut walk, &mut place) };
    if number == 0 { Ok(walk) } else { Err(Refused { number, place }) }
}
