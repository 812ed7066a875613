//! The numbers of the document, as requests with the answers the document gives, and more about stripes near to blank, stripes
//! with two wrong columns, changed cells and lists of them, images that are written and walked, wrong shapes, lengths and gaps.

use crate::code::*;
use crate::image::shelf;
use crate::requests::{Request, bytes_of, hex};

/// A number is asked of the library as a request, or of the program `shelf` with an image; of one that is neither, the definitions tell.
pub struct Number {
    pub name: &'static str,
    pub word: &'static str,
    pub request: Option<String>,
    pub image: Option<Vec<u8>>,
    pub computed: String,
    pub expected: String,
}

const MAX: usize = usize::MAX;
pub const C1: &str = "010204081020152a391e";
const C1_05: &str = "010205081020152a391e";
const C1_09: &str = "010204091020152a391e";
/// C1 with bit 0 of a(0,0) and of a(1,1) flipped, and this as it is when column 2 is rewritten.
pub const TWO_WRONG: &str = "000204091020152a391e";
const TWO_WRONG_SEALED: &str = "000204091121152a391e";
/// C1 with bit 0 of a(0,0) and bit 1 of a(0,1) flipped.
pub const TWO_WRONG_6: &str = "000206081020152a391e";
/// C1 after a write of 05 for a(0,1) that columns 1 and 3 missed.
const MISSED_WRITE: &str = "010204081020152a391f";
/// C1 with ff for a(1,1), and C8 with 04 for a(0,1), as a change leaves them.
const CHANGED_1_1: &str = "010204ff102015ddcee9";
const C8_CHANGED: &str = "010204081020142a391f";
/// C1 with every cell of its data changed, and C8 with 04 for a(0,1) and ff for a(1,2), as lists of changes leave them.
const CHANGED_ALL: &str = "10203040506070006000";
const C8_LIST: &str = "0102040810ff14f5e61f";
const C3: &str = "00000000000000010100010100000001010101000001000101010001";
const C9: &str = "01020408150a191e";
pub const C5_IMAGE: &str = "0300030001000000\
    0000000000000000\
    0100010030000000\
    0200000000000000\
    0300010032000000\
    0400010034000000\
    0408152a391e";
const C5_TEXT: &str = "shape 3 3 1|0 restored 0102|1 present 0408|2 restored 1020|\
    3 present 152a|4 present 391e|answer 0|";
/// C11 as an image, without column 0, without 0 and 4, and without 0, 1 and 2.
const C11_0_IMAGE: &str = "0300030001000000\
    0000000000000000\
    0100010030000000\
    0200010032000000\
    0300010034000000\
    0400010036000000\
    0000000000000000";
const C11_0_4_IMAGE: &str = "0300030001000000\
    0000000000000000\
    0100010030000000\
    0200010032000000\
    0300010034000000\
    0400000000000000\
    000000000000";
const C11_0_1_2_IMAGE: &str = "0300030001000000\
    0000000000000000\
    0100000000000000\
    0200000000000000\
    0300010030000000\
    0400010032000000\
    00000000";
const C11_0_TEXT: &str = "shape 3 3 1|0 restored 0000|1 present 0000|2 present 0000|\
    3 present 0000|4 present 0000|answer 0 blank|";
const C11_0_4_TEXT: &str = "shape 3 3 1|0 restored 0000|1 present 0000|2 present 0000|\
    3 present 0000|4 restored 0000|answer 0 blank|";

fn present(places: &[usize]) -> String {
    (0..PLACES).map(|p| if places.contains(&p) { '1' } else { '0' }).collect()
}

fn ask(name: &'static str, request: String, expected: String) -> Number {
    let parsed = Request::parse(&request).expect("the request is written rightly");
    Number { name, word: parsed.word(), computed: parsed.answer(), request: Some(request), image: None, expected }
}

/// What `shelf` prints, with its line ends as `|`.
fn printed(name: &'static str, image: &str, expected: String) -> Number {
    let image = bytes_of(image).expect("the bytes are written rightly");
    let computed = shelf(&image).replace('\n', "|");
    Number { name, word: "shelf", request: None, image: Some(image), computed, expected }
}

/// An image that ends after its header, and is refused.
fn header_only(name: &'static str, image: &str, number: u8) -> [Number; 2] {
    let contents = format!("{number} 0 0 0 {}", present(&[]));
    [ask(name, format!("contents {image}"), contents), printed(name, image, format!("answer {number}|"))]
}

fn zeros(count: usize) -> String { "00".repeat(count) }

/// C1 with one bit wrong in column 0 and one in column 1, and with two columns that missed a write.
fn two_wrong() -> Vec<Number> {
    let s = |t: &str| t.to_string();
    let restored = |name: &'static str, stripe: &str, absent: &[usize], expected: &str| {
        let map: Vec<usize> = (0..5).filter(|column| !absent.contains(column)).collect();
        ask(name, format!("restore 3 3 1 {} {stripe} a1a2a3a4", present(&map)), s(expected))
    };
    vec![
        // a(0,0) is in row 0 and in D's equation 0; a(1,1) is in row 1 and in S, and so in both equations of D. Broken are
        // both rows and D's equation 1: twice the same bit in D's equation 0 is none.
        ask("two-wrong", format!("check 3 3 1 {TWO_WRONG}"), s("0 2 1 3")),
        // Both cells of column 2 with this bit break the same: a(0,2) is in S, and a(1,2) in D's equation 0.
        ask("two-wrong", format!("locate 3 3 1 {TWO_WRONG}"), s("0 4 2")),
        ask("two-wrong", format!("rewrite 3 3 1 {TWO_WRONG} 2"), format!("0 {TWO_WRONG_SEALED}")),
        // S=18 as in C1. H: 00+04+11=15, 02+09+21=2a. D: 18+00+21=39, 18+02+04=1e.
        ask("two-wrong-sealed", format!("check 3 3 1 {TWO_WRONG_SEALED}"), s("0 0 0 1")),
        ask("two-wrong-sealed", format!("locate 3 3 1 {TWO_WRONG_SEALED}"), s("0 1 129")),
        // It is valid, and so the only valid stripe that agrees with its columns 2 to 4: the wrong bytes come back.
        restored("two-wrong-sealed,0,1", TWO_WRONG_SEALED, &[0, 1], "0 2 0 1 00020409"),
        // Only without column 2 do the others fit.
        restored("two-wrong", TWO_WRONG, &[], "5 0 129 129 a1a2a3a4"),
        restored("two-wrong,0", TWO_WRONG, &[0], "5 0 129 129 a1a2a3a4"),
        restored("two-wrong,1", TWO_WRONG, &[1], "5 0 129 129 a1a2a3a4"),
        restored("two-wrong,0,1", TWO_WRONG, &[0, 1], "0 2 0 1 01020408"),
        // The sealed stripe agrees with the columns that are left, and so it is the one.
        restored("two-wrong,0,2", TWO_WRONG, &[0, 2], "0 2 0 2 00021121"),
        restored("two-wrong,1,2", TWO_WRONG, &[1, 2], "0 2 1 2 04091121"),
        restored("two-wrong,2", TWO_WRONG, &[2], "0 1 2 129 1121a3a4"),
        restored("two-wrong,3", TWO_WRONG, &[3], "5 0 129 129 a1a2a3a4"),
        // S=09+10=19. D gives a(0,0)=39+19+20=00 and a(1,0)=1e+19+04=03; then H is 00+04+10=14 and 03+09+20=2a.
        restored("two-wrong,0,3", TWO_WRONG, &[0, 3], "0 2 0 3 0003142a"),
        // Both cells are in row 0; a(0,0) is in D's equation 0, and a(0,1) in 1.
        ask("two-wrong-6", format!("check 3 3 1 {TWO_WRONG_6}"), s("0 1 2 3")),
        // In bit 0 column 0 is wrong, in bit 1 column 1: it is not one column for all bits.
        ask("two-wrong-6", format!("locate 3 3 1 {TWO_WRONG_6}"), s("6 0 129")),
        ask("two-wrong-6", format!("rewrite 3 3 1 {TWO_WRONG_6} 0"), format!("5 {TWO_WRONG_6}")),
        restored("two-wrong-6,0", TWO_WRONG_6, &[0], "5 0 129 129 a1a2a3a4"),
        restored("two-wrong-6,1", TWO_WRONG_6, &[1], "5 0 129 129 a1a2a3a4"),
        restored("two-wrong-6,0,1", TWO_WRONG_6, &[0, 1], "0 2 0 1 01020408"),
        // With a(0,1)=05, which is not in S, row 0 is 01+05+10=14 and D's cell 1 is 18+02+05=1f. Of these three columns
        // only D has the new byte: it differs from C1 in that alone.
        ask("missed-write", format!("check 3 3 1 {MISSED_WRITE}"), s("0 0 1 3")),
        ask("missed-write", format!("locate 3 3 1 {MISSED_WRITE}"), s("0 4 4")),
        restored("missed-write,1,3", MISSED_WRITE, &[1, 3], "0 2 1 3 0508142a"),
        ask("missed-write", format!("rewrite 3 3 1 {MISSED_WRITE} 4"), format!("0 {C1}")),
    ]
}

/// Cells of the document's stripes that get new bytes, and changes that are refused.
fn changes() -> Vec<Number> {
    let s = |t: &str| t.to_string();
    let changed = |name: &'static str, shape: &str, stripe: &str, [column, row]: [usize; 2], cell: &str, expected: &str| {
        ask(name, format!("change {shape} {stripe} {column} {row} {cell}"), s(expected))
    };
    let of_c1 = |name, place, expected: &str| changed(name, "3 3 1", C1, place, "ff", expected);
    let refused = |name, place, cell: &str, number: u8| changed(name, "3 3 1", C1, place, cell, &format!("{number} {C1}"));
    let cut = &C1[..18];
    vec![
        // In C1 S=18, H is 15 2a, and D is 39 1e. A cell off S is in one equation of H and in one of D.
        // H(0)=ff+04+10=eb. D(0)=18+ff+20=c7.
        of_c1("change,0,0", [0, 0], "0 ff0204081020eb2ac71e"),
        // H(1)=ff+08+20=d7. D(1)=18+ff+04=e3.
        of_c1("change,0,1", [0, 1], "0 01ff0408102015d739e3"),
        // H(0)=01+ff+10=ee. D(1)=18+02+ff=e5.
        of_c1("change,1,0", [1, 0], "0 0102ff081020ee2a39e5"),
        // S=ff+10=ef. H(1)=02+ff+20=dd. D(0)=ef+01+20=ce, D(1)=ef+02+04=e9.
        of_c1("change,1,1", [1, 1], &format!("0 {CHANGED_1_1}")),
        // S=08+ff=f7. H(0)=01+04+ff=fa. D(0)=f7+01+20=d6, D(1)=f7+02+04=f1.
        of_c1("change,2,0", [2, 0], "0 01020408ff20fa2ad6f1"),
        // H(1)=02+08+ff=f5. Row 1 and column 2 add up to m: D(0)=18+01+ff=e6.
        of_c1("change,2,1", [2, 1], "0 0102040810ff15f5e61e"),
        changed("change,back", "3 3 1", CHANGED_1_1, [1, 1], "08", &format!("0 {C1}")),
        // Row 0 broke by 01 and D's equation 1 by 01, and so they do with H(0)=01+04+10+01=14 and D(1)=18+02+04+01=1f.
        changed("C8,change", "3 3 1", C1_05, [1, 0], "04", &format!("0 {C8_CHANGED}")),
        ask("C8,change", format!("check 3 3 1 {C8_CHANGED}"), s("0 1 1 3")),
        ask("C8,change", format!("locate 3 3 1 {C8_CHANGED}"), s("0 4 1")),
        // With one data column S=0, and H and D are equal to it.
        changed("C2,change", "3 1 1", "010201020102", [0, 1], "ff", "0 01ff01ff01ff"),
        // It is on the diagonal of S, and the cell is 00: H(1)=01+01=00, and each cell of D becomes what it was plus 01.
        changed("C3,change", "5 5 1", C3, [3, 1], "01", "0 00000000000000010100010100010001010101000000000100000100"),
        // The cell is 00. H(3)=01+ff=fe. Row 3 and column 4 are 2 modulo 5: D(2)=00+ff=ff.
        changed("C3,change,wrap", "5 5 1", C3, [4, 3], "ff", "0 00000000000000010100010100000001010101ff000100fe0101ff01"),
        // On the diagonal of S: H(0)=ff, D(0)=ff, D(1)=ff.
        changed("C11,change", "3 3 1", &zeros(10), [2, 0], "ff", "0 00000000ff00ff00ffff"),
        refused("change,column=3", [3, 0], "ff", 7),
        refused("change,column=4", [4, 0], "ff", 7),
        refused("change,column=max", [MAX, 0], "ff", 7),
        refused("change,row=2", [0, 2], "ff", 11),
        refused("change,row=max", [0, MAX], "ff", 11),
        refused("change,cell=0", [0, 0], "-", 14),
        refused("change,cell=2", [0, 0], "ffff", 14),
        changed("change,length=9", "3 3 1", cut, [0, 0], "ff", &format!("2 {cut}")),
        refused("change,column=3,row=2", [3, 2], "ff", 7),
        refused("change,row=2,cell=2", [0, 2], "ffff", 11),
        changed("change,length=9,column=3", "3 3 1", cut, [3, 0], "ff", &format!("2 {cut}")),
        changed("change,k=4,length=9", "3 4 1", cut, [0, 0], "ff", &format!("12 {cut}")),
    ]
}

/// So many items at C1's shape: item n has column n mod 3, row n mod 2, and the cell n mod 256.
fn items(count: usize) -> (Vec<usize>, Vec<usize>, String) {
    let cells: Vec<u8> = (0..count).map(|n| n as u8).collect();
    ((0..count).map(|n| n % 3).collect(), (0..count).map(|n| n % 2).collect(), hex(&cells))
}

/// Lists of cells that get new bytes at once, and lists that are refused.
fn lists() -> Vec<Number> {
    let s = |t: &str| t.to_string();
    let field = |list: &[usize]| match list {
        [] => s("-"),
        list => list.iter().map(usize::to_string).collect::<Vec<String>>().join(","),
    };
    let changed = |name, shape: &str, stripe: &str, [columns, rows]: [&[usize]; 2], cells: &str, expected: String| {
        ask(name, format!("changes {shape} {stripe} {} {} {cells}", field(columns), field(rows)), expected)
    };
    let of_c1 = |name, lists, cells: &str, after: &str| changed(name, "3 3 1", C1, lists, cells, format!("0 256 {after}"));
    let refused = |name, lists, cells: &str, number: u8, item: usize| {
        changed(name, "3 3 1", C1, lists, cells, format!("{number} {item} {C1}"))
    };
    let many = |name, count: usize, expected: String| {
        let (columns, rows, cells) = items(count);
        changed(name, "3 3 1", C1, [&columns, &rows], &cells, expected)
    };
    let (mut with_3, rows_256, cells_256) = items(256);
    with_3[255] = 3;
    let cut = &C1[..18];
    // S=18 as in C1, for a(0,0) and a(1,2) are not in it. H: ff+04+10=eb, 02+08+fe=f4. D(0)=18+ff+fe=19.
    let two = "ff02040810feebf4191e";
    vec![
        of_c1("changes,none", [&[], &[]], "-", C1),
        of_c1("changes,one", [&[1], &[1]], "ff", CHANGED_1_1),
        of_c1("changes,two", [&[0, 2], &[0, 1]], "fffe", two),
        of_c1("changes,two,turned", [&[2, 0], &[1, 0]], "feff", two),
        of_c1("changes,twice", [&[1, 1], &[1, 1]], "aaff", CHANGED_1_1),
        // a(0,2)=55, a(1,0)=22, a(0,1)=44. S=08+55=5d. H: 01+44+55=10, 22+08+20=0a. D: 5d+01+20=7c, 5d+22+44=3b.
        of_c1("changes,three-times", [&[2, 0, 2, 1, 2], &[0, 1, 0, 0, 0]], "1122334455", "012244085520100a7c3b"),
        // S=40+50=10. H: 10+30+50=70, 20+40+60=00. D: 10+10+60=60, 10+20+30=00.
        of_c1("changes,all", [&[0, 0, 1, 1, 2, 2], &[0, 1, 0, 1, 0, 1]], "102030405060", CHANGED_ALL),
        changed(
            "changes,back",
            "3 3 1",
            CHANGED_ALL,
            [&[0, 0, 1, 1, 2, 2], &[0, 1, 0, 1, 0, 1]],
            "010204081020",
            format!("0 256 {C1}"),
        ),
        // Row 0 broke by 01 and D's equation 1 by 01. S=18. H: 01+04+10+01=14, 02+08+ff=f5. D: 18+01+ff=e6, 18+02+04+01=1f.
        changed("C8,changes", "3 3 1", C1_05, [&[1, 2], &[0, 1]], "04ff", format!("0 256 {C8_LIST}")),
        ask("C8,changes", format!("check 3 3 1 {C8_LIST}"), s("0 1 1 3")),
        ask("C8,changes", format!("locate 3 3 1 {C8_LIST}"), s("0 4 1")),
        // S=ff. H(0)=0f+ff=f0. D: ff+0f=f0, ff.
        changed("C11,changes", "3 3 1", &zeros(10), [&[2, 0], &[0, 0]], "ff0f", s("0 256 0f000000ff00f000f0ff")),
        // a(1,1) is on the diagonal of S, and becomes what it was plus e9f7; a(1,0) is in D's equation 1, and becomes what it was
        // plus cfd9. H(1)=2222+e9f7+cfd9=040c. D: 3333+e9f7=dac4, 4444+e9f7+cfd9=626a.
        changed(
            "changes,lanes",
            "3 2 2",
            "01020304050607081111222233334444",
            [&[1, 0, 1], &[1, 1, 1]],
            "aabbccddeeff",
            s("0 256 0102ccdd0506eeff1111040cdac4626a"),
        ),
        // Six items are every cell once, so of each cell the last six items tell: of 252 to 254 the cells a(0,0), a(1,1), a(0,2),
        // of 249 to 251 a(1,0), a(0,1), a(1,2). S=fd+fe=03. H: fc+fa+fe=f8, f9+fd+fb=ff. D: 03+fc+fb=04, 03+f9+fa=00.
        many("changes,items=255", 255, s("0 256 fcf9fafdfefbf8ff0400")),
        // Item 255 is a(1,0). H(1)=ff+fd+fb=f9. D(1)=03+ff+fa=06.
        many("changes,items=256", 256, s("0 256 fcfffafdfefbf8f90406")),
        many("changes,items=257", 257, format!("15 256 {C1}")),
        refused("changes,first", [&[3, 0, 1], &[0, 0, 0]], "ffffff", 7, 0),
        refused("changes,middle", [&[0, 4, 1], &[0, 0, 0]], "ffffff", 7, 1),
        refused("changes,last", [&[0, 1, MAX], &[0, 0, 0]], "ffffff", 7, 2),
        refused("changes,row-first", [&[0, 1, 2], &[2, 0, 0]], "ffffff", 11, 0),
        refused("changes,row-middle", [&[0, 1, 2], &[0, MAX, 0]], "ffffff", 11, 1),
        refused("changes,row-last", [&[0, 1, 2], &[1, 1, 2]], "ffffff", 11, 2),
        refused("changes,row-then-column", [&[0, 0, 3], &[0, 2, 0]], "ffffff", 11, 1),
        refused("changes,column-then-row", [&[0, 3, 0], &[0, 0, 2]], "ffffff", 7, 1),
        refused("changes,both", [&[0, 3], &[0, 2]], "ffff", 7, 1),
        refused("changes,items=256,last", [&with_3, &rows_256], &cells_256, 7, 255),
        refused("changes,rows=1", [&[0, 1], &[0]], "ffff", 15, 256),
        refused("changes,rows=3", [&[0, 1], &[0, 0, 0]], "ffff", 15, 256),
        refused("changes,columns=0", [&[], &[0]], "ff", 15, 256),
        refused("changes,cells=1", [&[0, 1], &[0, 0]], "ff", 15, 256),
        refused("changes,cells=3", [&[0, 1], &[0, 0]], "ffffff", 15, 256),
        refused("changes,none,cells=1", [&[], &[]], "ff", 15, 256),
        refused("changes,cells=1,column=3", [&[3, 0], &[2, 0]], "ff", 15, 256),
        changed("changes,length=9,rows=1", "3 3 1", cut, [&[0, 1], &[0]], "ffff", format!("2 256 {cut}")),
        changed("changes,k=4,length=9", "3 4 1", cut, [&[3], &[0]], "ff", format!("12 256 {cut}")),
    ]
}

/// The document's image written from C1, and images near to it; buffers of other lengths, and writes that are refused. All have
/// C1's shape, where none is named. The buffer holds `c0`, `c1` and so on.
fn writes() -> Vec<Number> {
    let s = |t: &str| t.to_string();
    let lent = |count: usize| if count == 0 { s("-") } else { hex(&(0..count).map(|n| 0xc0 + n as u8).collect::<Vec<u8>>()) };
    let written = |name, shape: &str, places: &[usize], stripe: &str, room: usize, expected: String| {
        ask(name, format!("write {shape} {} {stripe} {}", present(places), lent(room)), expected)
    };
    let of_c1 = |name, places: &[usize], room, expected: String| written(name, "3 3 1", places, C1, room, expected);
    let (some, all, stray) = ([1, 3, 4], [0, 1, 2, 3, 4], [1, 3, 4, 5]);
    // So many bytes of it as they were.
    let refused = |number: u8, room: usize| format!("{number} 0 {}", lent(room));
    let c5 = format!("0 54 {C5_IMAGE}");
    // The contents end at 48=30 hex, and a column has two bytes.
    let whole = "0300030001000000\
        0000010030000000\
        0100010032000000\
        0200010034000000\
        0300010036000000\
        0400010038000000\
        010204081020152a391e";
    let none = "0300030001000000\
        0000000000000000\
        0100000000000000\
        0200000000000000\
        0300000000000000\
        0400000000000000";
    // The contents end at 8+3*8=32=20 hex. A column has 2*2 bytes, so H is at 24 hex if column 0 is present.
    let lanes = "0300010002000000\
        0000010020000000\
        0100000000000000\
        0200010024000000\
        01020304090a0b0c";
    // 127=7f, 4096=1000 hex: 129 entries, and 8+129*8=1040 bytes.
    let largest = (0..129).fold(s("7f007f0000100000"), |text, column: usize| text + &format!("{column:02x}00000000000000"));
    vec![
        of_c1("P1,C5", &some, 54, c5.clone()),
        // What stands in columns 0 and 2 does not matter.
        written("P1,C5,stale", "3 3 1", &some, "ffff0408ffff152a391e", 54, c5.clone()),
        written("P1,C5,zero", "3 3 1", &some, "000004080000152a391e", 54, c5.clone()),
        // 54 bytes are c0 to f5, so f6 is the next, and f7 the one after it.
        of_c1("P1,C5,room=55", &some, 55, format!("{c5}f6")),
        of_c1("P1,C5,room=56", &some, 56, format!("{c5}f6f7")),
        of_c1("P1,C5,room=53", &some, 53, refused(16, 53)),
        of_c1("P1,C5,room=48", &some, 48, refused(16, 48)),
        of_c1("P1,C5,room=8", &some, 8, refused(16, 8)),
        of_c1("P1,C5,room=0", &some, 0, refused(16, 0)),
        of_c1("P1,all", &all, 58, format!("0 58 {whole}")),
        of_c1("P1,all,room=57", &all, 57, refused(16, 57)),
        of_c1("P1,none", &[], 48, format!("0 48 {none}")),
        of_c1("P1,none,room=49", &[], 49, format!("0 48 {none}f0")),
        of_c1("P1,none,room=47", &[], 47, refused(16, 47)),
        // The image of a stripe that is not valid is like any other.
        written("P1,C8", "3 3 1", &some, C1_05, 54, c5.replace("0408152a", "0508152a")),
        written("P1,lanes", "3 1 2", &[0, 2], "0102030405060708090a0b0c", 40, format!("0 40 {lanes}")),
        of_c1("P1,place=5", &stray, 54, refused(9, 54)),
        of_c1("P1,place=128", &[1, 3, 4, 128], 64, refused(9, 64)),
        of_c1("P1,place=5,room=53", &stray, 53, refused(9, 53)),
        of_c1("P1,place=5,room=0", &stray, 0, refused(9, 0)),
        written("P1,length=9", "3 3 1", &some, &C1[..18], 54, refused(2, 54)),
        written("P1,length=11", "3 3 1", &some, &format!("{C1}00"), 54, refused(2, 54)),
        written("P1,length=9,place=5", "3 3 1", &stray, &C1[..18], 54, refused(2, 54)),
        written("P1,length=9,room=0", "3 3 1", &some, &C1[..18], 0, refused(2, 0)),
        written("P1,m=9", "9 3 1", &some, C1, 54, refused(1, 54)),
        written("P1,k=4", "3 4 1", &some, C1, 54, refused(12, 54)),
        written("P1,b=0", "3 3 0", &some, C1, 54, refused(13, 54)),
        written("P1,m=9,k=0", "9 0 1", &some, C1, 54, refused(1, 54)),
        written("P1,k=4,b=0", "3 4 0", &some, C1, 54, refused(12, 54)),
        written("P1,b=4097,length=9", "3 3 4097", &some, &C1[..18], 54, refused(13, 54)),
        written("P1,k=max", &format!("3 {MAX} 1"), &some, C1, 54, refused(12, 54)),
        ask(
            "P1,largest,none",
            format!("write 127 127 4096 {} 66576384*1 {}", present(&[]), zeros(1040)),
            format!("0 1040 {largest}"),
        ),
    ]
}

/// Steps over C5's image from every place, and over images that are refused.
fn walks() -> Vec<Number> {
    let walked = |name, image: &str, place: usize, expected: &str| ask(name, format!("walk {image} {place}"), expected.to_string());
    let of_c5 = |name, place, expected| walked(name, C5_IMAGE, place, expected);
    let none = format!("@3,3,1,{},1", present(&[]));
    let all = "1".repeat(PLACES);
    let (wide, largest) = (format!("@127,127,1,{all},1"), format!("@127,127,4096,{all},1"));
    let cut = &C5_IMAGE[..106];
    let longer = &format!("{C5_IMAGE}00");
    // Byte 10 is column 0's state, and byte 20 the first of column 1's offset, which is then one column off.
    let with = |byte: usize, value: &str| format!("{}{value}{}", &C5_IMAGE[..2 * byte], &C5_IMAGE[2 * byte + 2..]);
    let (state, offset) = (&with(10, "02"), &with(20, "32"));
    vec![
        // Columns 1, 3 and 4 are there, with two bytes each, from 30 hex on.
        of_c5("P1,place=0", 0, "0 2 1 48 2"),
        of_c5("P1,place=1", 1, "0 2 1 48 2"),
        of_c5("P1,place=2", 2, "0 4 3 50 2"),
        of_c5("P1,place=3", 3, "0 4 3 50 2"),
        of_c5("P1,place=4", 4, "0 5 4 52 2"),
        of_c5("P1,place=5", 5, "0 5 129 0 0"),
        of_c5("P1,place=6", 6, "8 6 129 0 0"),
        of_c5("P1,place=129", 129, "8 129 129 0 0"),
        of_c5("P1,place=256", 256, "8 256 129 0 0"),
        of_c5("P1,place=2^32", 1 << 32, "8 4294967296 129 0 0"),
        of_c5("P1,place=max", MAX, "8 18446744073709551615 129 0 0"),
        walked("P1,none,place=0", &none, 0, "0 5 129 0 0"),
        walked("P1,none,place=4", &none, 4, "0 5 129 0 0"),
        walked("P1,none,place=5", &none, 5, "0 5 129 0 0"),
        walked("P1,none,place=6", &none, 6, "8 6 129 0 0"),
        // The contents end at 1040, and a column has 126 bytes: 1040+64*126=9104, 1040+128*126=17168.
        walked("P1,m=127,place=0", &wide, 0, "0 1 0 1040 126"),
        walked("P1,m=127,place=64", &wide, 64, "0 65 64 9104 126"),
        walked("P1,m=127,place=128", &wide, 128, "0 129 128 17168 126"),
        walked("P1,m=127,place=129", &wide, 129, "0 129 129 0 0"),
        walked("P1,m=127,place=130", &wide, 130, "8 130 129 0 0"),
        walked("P1,m=127,place=max", &wide, MAX, "8 18446744073709551615 129 0 0"),
        // A column has 126*4096=516096 bytes: 1040+128*516096=66061328.
        walked("P1,largest,place=128", &largest, 128, "0 129 128 66061328 516096"),
        walked("P1,cut", cut, 0, "8 0 129 0 0"),
        walked("P1,cut,place=3", cut, 3, "8 3 129 0 0"),
        walked("P1,cut,place=max", cut, MAX, "8 18446744073709551615 129 0 0"),
        walked("P1,longer", longer, 4, "8 4 129 0 0"),
        walked("P1,state=2", state, 1, "8 1 129 0 0"),
        walked("P1,offset", offset, 3, "8 3 129 0 0"),
        walked("P1,empty", "-", 0, "8 0 129 0 0"),
        walked("P1,image,k=3", "0300030001000000", 0, "8 0 129 0 0"),
        walked("P1,image,m=9", "0900030001000000", 2, "1 2 129 0 0"),
        walked("P1,image,k=4", "0300040001000000", 2, "12 2 129 0 0"),
        walked("P1,image,b=0", "0300030000000000", 2, "13 2 129 0 0"),
        walked("P1,image,b=0,fourth", "0300030000000100", 2, "8 2 129 0 0"),
        // The image comes before the place.
        walked("P1,image,m=9,place=max", "0900030001000000", MAX, "1 18446744073709551615 129 0 0"),
    ]
}

pub fn all() -> Vec<Number> {
    let bytes = |text| bytes_of(text).expect("the bytes are written rightly");
    let c1_shape = Shape { m: 3, k: 3, b: 1 };
    let cols_134 = present(&[1, 3, 4]);
    let cols_13456 = present(&[1, 3, 4, 5, 6]);
    let s = |t: &str| t.to_string();
    let mut list = vec![
        ask("C1", s("encode 3 3 1 01020408102000000000"), format!("0 {C1}")),
        Number {
            name: "C1",
            word: "S",
            request: None,
            image: None,
            computed: hex(&main_sum(c1_shape, &bytes(C1))),
            expected: s("18"),
        },
        ask("C2", s("encode 3 1 1 010200000000"), s("0 010201020102")),
        ask("C3", format!("encode 5 5 1 {}{}", &C3[..40], zeros(8)), format!("0 {C3}")),
        ask(
            "C4",
            format!("restore 5 5 1 {cols_13456} ffffffff{}ffffffff{} {}", &C3[8..16], &C3[24..], zeros(8)),
            s("0 2 0 2 0000000001000101"),
        ),
        ask("C5", format!("restore 3 3 1 {cols_134} ffff0408ffff152a391e 00000000"), s("0 2 0 2 01021020")),
        ask("C6", format!("restore 3 3 1 {} {C1_05} a1a2a3a4", present(&[1, 2, 3, 4])), s("5 0 129 129 a1a2a3a4")),
        ask("C7", format!("restore 3 3 1 {cols_134} {C1_05} 00000000"), s("0 2 0 2 00031021")),
        ask("C8", format!("check 3 3 1 {C1_05}"), s("0 1 1 3")),
        ask("C8", format!("locate 3 3 1 {C1_05}"), s("0 4 1")),
        ask("C8", format!("rewrite 3 3 1 {C1_05} 1"), format!("0 {C1}")),
        ask("C9", format!("check 3 2 1 {C9}"), s("0 1 2 3")),
        ask("C9", format!("locate 3 2 1 {C9}"), s("6 0 129")),
        // H would have column 0 be 11 02, and D's cell 1 would then be 0e.
        ask("C9", format!("rewrite 3 2 1 {C9} 0"), format!("5 {C9}")),
        ask("C10", format!("restore 3 3 1 {} {C1} a1a2a3a4", present(&[3, 4])), s("4 0 129 129 a1a2a3a4")),
        ask("C11", format!("check 3 3 1 {}", zeros(10)), s("0 0 0 2")),
        ask("C11", format!("locate 3 3 1 {}", zeros(10)), s("0 2 129")),
        ask("C11", format!("rewrite 3 3 1 {} 4", zeros(10)), format!("0 {}", zeros(10))),
        // a(0,0) is in row 0 and in D's equation 0, and not in S.
        ask("C11,first", s("check 3 3 1 01000000000000000000"), s("0 1 1 3")),
        ask("C11,first", s("locate 3 3 1 01000000000000000000"), s("0 4 0")),
        // A cell of D or H is in one equation only.
        ask("C11,last", s("check 3 3 1 00000000000000000001"), s("0 0 1 3")),
        ask("C11,last", s("locate 3 3 1 00000000000000000001"), s("0 4 4")),
        ask("C11,H", s("check 3 3 1 00000000000001000000"), s("0 1 0 3")),
        ask("C11,H", s("locate 3 3 1 00000000000001000000"), s("0 4 3")),
        printed("C11,0", C11_0_IMAGE, s(C11_0_TEXT)),
        printed("C11,0,4", C11_0_4_IMAGE, s(C11_0_4_TEXT)),
        printed("C11,0,1,2", C11_0_1_2_IMAGE, s("shape 3 3 1|answer 4|")),
    ];
    list.extend(two_wrong());
    list.extend(changes());
    list.extend(lists());
    list.extend(writes());
    list.extend(walks());
    let shapes = [
        ("m=2", [2, 1, 1], 1),
        ("m=9", [9, 1, 1], 1),
        ("m=129", [129, 1, 1], 1),
        ("m=131", [131, 1, 1], 1),
        ("m=127", [127, 1, 1], 0),
        ("k=0", [3, 0, 1], 12),
        ("k=4", [3, 4, 1], 12),
        ("k=3", [3, 3, 1], 0),
        ("b=0", [3, 1, 0], 13),
        ("b=4097", [3, 1, 4097], 13),
        ("b=4096", [3, 1, 4096], 0),
        ("m=9,k=0", [9, 0, 1], 1),
        ("m=9,b=0", [9, 1, 0], 1),
        ("m=9,k=0,b=0", [9, 0, 0], 1),
        ("k=4,b=0", [3, 4, 0], 12),
    ];
    for (name, [m, k, b], expected) in shapes {
        let length = (k + 2) * (m - 1) * b;
        let stripe = if length == 0 { s("-") } else { zeros(length) };
        // All zero, and so blank where it is not refused.
        let found = if expected == 0 { 2 } else { 0 };
        list.push(ask(name, format!("check {m} {k} {b} {stripe}"), format!("{expected} 0 0 {found}")));
    }
    // Too large for a stripe of their length.
    let large = [
        ("m=65539", [65_539, 1, 1], 1),
        ("k=65537", [3, 65_537, 1], 12),
        ("b=65537", [3, 1, 65_537], 13),
        ("m=max", [MAX, 1, 1], 1),
        ("k=max", [3, MAX, 1], 12),
        ("b=max", [3, 1, MAX], 13),
        ("all=max", [MAX, MAX, MAX], 1),
    ];
    for (name, [m, k, b], expected) in large {
        list.push(ask(name, format!("check {m} {k} {b} -"), format!("{expected} 0 0 0")));
    }
    let map = present(&[0, 1, 2, 3, 4]);
    let stray = present(&[0, 1, 2, 3, 4, 5]);
    let far = present(&[0, 1, 2, 3, 4, 6]);
    // C1 in both byte lanes; lane 0 wrong in column 0, lane 1 wrong in column 1.
    let mut lanes: Vec<u8> = bytes(C1).iter().flat_map(|&x| [x, x]).collect();
    lanes[0] ^= 0x40;
    lanes[5] ^= 0x40;
    let lanes = hex(&lanes);
    list.extend([
        ask("length=9", format!("check 3 3 1 {}", &C1[..18]), s("2 0 0 0")),
        ask("length=9", format!("encode 3 3 1 {}", &C1[..18]), format!("2 {}", &C1[..18])),
        ask("length=11", format!("check 3 3 1 {C1}00"), s("2 0 0 0")),
        ask("length=11", format!("encode 3 3 1 {C1}00"), format!("2 {C1}00")),
        ask("place=5", format!("restore 3 3 1 {stray} {C1} a1a2a3a4"), s("9 0 129 129 a1a2a3a4")),
        ask("place=5", format!("show 3 3 1 {stray} {C1} a1a2a3a4 0"), s("9 0 0 0")),
        ask("lengths,C1", s("lengths 3 3 1"), s("10 4")),
        ask("lengths,m=127", s("lengths 127 3 1"), s("630 252")),
        ask("lengths,m=9", s("lengths 9 3 1"), s("0 0")),
        ask("lengths,k=4", s("lengths 3 4 1"), s("0 4")),
        ask("lengths,k=max", format!("lengths 3 {MAX} 1"), s("0 4")),
        ask("lengths,b=4097", s("lengths 3 3 4097"), s("0 0")),
        ask("lengths,all=max", format!("lengths {MAX} {MAX} {MAX}"), s("0 0")),
        ask("gaps,C5", format!("gaps 3 {cols_134}"), s("0 3 4 2 0 2")),
        ask("gaps,none", format!("gaps 3 {}", present(&[])), s("0 0 129 5 0 1")),
        ask("gaps,all,k=127", format!("gaps 127 {}", "1".repeat(PLACES)), s("0 129 128 0 129 129")),
        ask("gaps,128,k=126", format!("gaps 126 {}", present(&[128])), s("0 1 128 128 0 1")),
        ask("gaps,128,k=127", format!("gaps 127 {}", present(&[128])), s("0 1 128 128 0 1")),
        ask("gaps,k=max", format!("gaps {MAX} {}0", "1".repeat(PLACES - 1)), s("0 128 127 1 128 129")),
        ask("m+bench", format!("restore 9 3 1 {map} {C1} a1"), s("1 0 129 129 a1")),
        ask("k+bench", format!("restore 3 4 1 {map} {C1} a1"), s("12 0 129 129 a1")),
        ask("b+bench", format!("restore 3 3 0 {map} {C1} a1"), s("13 0 129 129 a1")),
        ask("k+length", format!("encode 3 4 1 {C1}"), format!("12 {C1}")),
        ask("b+length", format!("locate 3 3 4097 {C1}"), s("13 0 129")),
        ask("b+column", format!("rewrite 3 3 4097 {C1} 9"), format!("13 {C1}")),
        ask("k+column", format!("show 3 4 1 {far} {C1} a1a2a3a4 9"), s("12 0 0 0")),
        ask("lanes", format!("locate 3 3 2 {lanes}"), s("6 0 129")),
        ask("lanes", format!("rewrite 3 3 2 {lanes} 0"), format!("5 {lanes}")),
        ask("lanes", format!("rewrite 3 3 2 {lanes} 1"), format!("5 {lanes}")),
        ask("column=5", format!("rewrite 3 3 1 {C1_09} 5"), format!("7 {C1_09}")),
        ask("08->09", format!("check 3 3 1 {C1_09}"), s("0 1 2 3")),
        ask("C5-image", format!("contents {C5_IMAGE}"), format!("0 3 3 1 {cols_134}")),
        ask(
            "C5-image",
            format!("read {C5_IMAGE} b0b1b2b3b4b5b6b7b8b9"),
            format!("0 3 3 1 {cols_134} b0b10408b4b5152a391e"),
        ),
        printed("C5-image", C5_IMAGE, s(C5_TEXT)),
    ]);
    let headers = [
        ("image,m=9", "0900030001000000", 1),
        ("image,k=4", "0300040001000000", 12),
        ("image,b=0", "0300030000000000", 13),
        ("image,m=9,k=0", "0900000001000000", 1),
        ("image,k=4,b=0", "0300040000000000", 12),
        ("image,b=0,fourth", "0300030000000100", 8),
        ("image,k=3", "0300030001000000", 8),
    ];
    list.extend(headers.into_iter().flat_map(|(name, image, number)| header_only(name, image, number)));
    list
}
