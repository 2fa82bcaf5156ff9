//! The fifteen worked examples of document 02's Ask 7, with every number and byte that they tell of.
#![allow(dead_code)] // no test uses all of it

use Call::*;

const PAGE: usize = 16384;

/// A call before the export. `Write` has the id's page and slot first.
pub enum Call {
    Insert(Vec<u8>),
    Write(u64, u16, Vec<u8>),
}

/// A file imported into pages of zeros: the answer, how many records went in, and what is then in the segment from an offset on. Where
/// no record went in no byte may change.
pub struct Import {
    pub title: &'static str,
    pub pages: usize,
    pub file: Vec<u8>,
    pub answer: u64,
    pub inserted: u64,
    pub left: Vec<(usize, Vec<u8>)>,
}

/// Pages of zeros, calls on them, bytes set by hand; an export into so many bytes, each [`KEPT`]: the answer, the two numbers told, and the
/// place afterwards.
pub struct Export {
    pub title: &'static str,
    pub pages: usize,
    pub calls: Vec<Call>,
    pub set: Vec<(usize, Vec<u8>)>,
    pub answer: u64,
    pub length: u64,
    pub passed: u64,
    pub place: Vec<u8>,
}

/// What a place holds before an export, and where it is not written afterwards.
pub const KEPT: u8 = 0xEE;

/// Mirror 7, reading 1, row 2, three bytes.
pub const A: [u8; 15] = [0x52, 0x54, 0x00, 0x00, 0x00, 0x07, 0x00, 0x01, 0x00, 0x02, 0x00, 0x03, 0xAA, 0xBB, 0xCC];

/// Mirror 7, reading 1, row 3, no data.
pub const B: [u8; 12] = [0x52, 0x54, 0x00, 0x00, 0x00, 0x07, 0x00, 0x01, 0x00, 0x03, 0x00, 0x00];

/// Their records in the store.
pub const A_STORED: [u8; 11] = [0x00, 0x00, 0x00, 0x07, 0x00, 0x01, 0x00, 0x02, 0xAA, 0xBB, 0xCC];
pub const B_STORED: [u8; 8] = [0x00, 0x00, 0x00, 0x07, 0x00, 0x01, 0x00, 0x03];

/// B with another length, and this data.
pub fn b_of(length: u16, data: &[u8]) -> Vec<u8> {
    [&B[..10], &length.to_be_bytes(), data].concat()
}

/// A page with A's record alone.
pub fn page_of_a() -> Vec<u8> {
    let header = [0x00, 0x01, 0x00, 0x01, 0x00, 0x00, 0x3F, 0xF5, 0x00, 0x00, 0x3F, 0xE1];
    let slot = [0x00, 0x00, 0x3F, 0xF5, 0x00, 0x00, 0x00, 0x0B];
    [&header[..], &slot, &[0; PAGE - 20 - 11], &A_STORED].concat()
}

/// Of so many bytes, all alike, as the file has it.
fn filled(length: usize, byte: u8) -> Vec<u8> {
    [&[0x52, 0x54][..], &vec![byte; 8], &(length as u16 - 8).to_be_bytes(), &vec![byte; length - 8]].concat()
}

/// The file of example 14, which example 15 imports.
fn file_of_14() -> Vec<u8> {
    [filled(11, 0x11), filled(12271, 0x22)].concat()
}

pub fn imports() -> Vec<Import> {
    let import = |title, file: &[&[u8]], answer, inserted| {
        Import { title, pages: 1, file: file.concat(), answer, inserted, left: vec![] }
    };
    let leaves = |left, import| Import { left, ..import };
    let full = [0x00, 0x01, 0x00, 0x01, 0x00, 0x00, 0x00, 0x14, 0x00, 0x00, 0x00, 0x00];
    let with = |place: usize, byte: u8, mut file: Vec<u8>| {
        file[place] = byte;
        file
    };
    vec![
        leaves(vec![(0, page_of_a())], import("1. A", &[&A], 0, 1)),
        import("2. An empty file", &[], 0, 0),
        import("3. A, and the first 11 bytes of B", &[&A, &B[..11]], 13, 0),
        import("4. Eleven bytes, the second 53", &[&with(1, 0x53, B[..11].to_vec())], 13, 0),
        import("5. B with second byte 53 and length FF FF", &[&with(1, 0x53, b_of(0xFFFF, &[]))], 12, 0),
        import("6. B with length 16,357", &[&b_of(16357, &[])], 3, 0),
        import("7. B with length 16,356, and a byte less", &[&b_of(16356, &[0xDD; 16355])], 13, 0),
        leaves(
            vec![(0, full.to_vec()), (20, B_STORED.to_vec()), (28, vec![0xDD; 16356])],
            import("8. B with 16,356 bytes", &[&b_of(16356, &[0xDD; 16356])], 0, 1),
        ),
        leaves(vec![(0, page_of_a())], import("9. A, a row of 12,263 bytes, A", &[&A, &b_of(12263, &[0xDD; 12263]), &A], 7, 1)),
        leaves(
            vec![(PAGE - 11, vec![0x11; 11]), (0, page_of_a()[..20].to_vec())],
            import("15. The file of 14", &[&file_of_14()], 7, 1),
        ),
    ]
}

pub fn exports() -> Vec<Export> {
    let kept = |length: usize| vec![KEPT; length];
    let of_ab = || vec![Insert(A_STORED.to_vec()), Insert(vec![0x77; 7]), Insert(B_STORED.to_vec())];
    let export = |title, pages, calls, told: (u64, u64, u64), place| {
        Export { title, pages, calls, set: vec![], answer: told.0, length: told.1, passed: told.2, place }
    };
    let of_three = [(16000, 0x11), (100, 0x11), (12000, 0x11)].map(|(length, byte)| Insert(vec![byte; length]));
    let forwarded = of_three.into_iter().chain([Write(1, 0, vec![0x22; 5000])]).collect();
    let grown = vec![Insert(vec![0x11; 11]), Insert(vec![0x11; 20]), Write(0, 1, vec![0x22; 12271])];
    let last = [0x52, 0x54, 0x22, 0x22, 0x22, 0x22, 0x22, 0x22, 0x22, 0x22, 0x13, 0x80];
    let of_13 = [filled(16000, 0x11), filled(12000, 0x11), last.to_vec(), vec![0x22; 4992]].concat();
    vec![
        export("10. A, seven bytes, B", 2, of_ab(), (0, 27, 1), [&A[..], &B, &[KEPT; 3]].concat()),
        export("11. The same into 26 bytes", 2, of_ab(), (11, 27, 1), kept(26)),
        Export { set: vec![(PAGE + 1, vec![1])], ..export("12. A damaged page, no bytes", 2, vec![], (4, 0, 0), vec![]) },
        export("13. A forwarded record", 3, forwarded, (0, 33012, 0), of_13),
        export("14. A record that grew", 1, grown, (0, 12290, 0), file_of_14()),
    ]
}
