//! Calls of the importer that are always made: all tiny words in a text, and more of everything than
//! 16 bits count.

use crate::import_calls::Call;

/// Every word of up to `MOST` bytes of these in place of a vehicle's number, a row's number, a
/// coordinate, a service and all that follows the rows.
pub fn each_tiny(mut with: impl FnMut(&Call)) {
    const MOST: u32 = 4;
    const OF: &[u8] = b"01- \t\r\nx";
    const PLACES: [[&str; 2]; 5] = [
        ["C\n", " 9\n0 1 2 3 4 5 6\n"],
        ["C\n7 9\n", " 1 2 3 4 5 6\n1 1 2 3 4 5 6\n"],
        ["C\n7 9\n0 ", " 2 3 4 5 6\n1 1 2 3 4 5 6\n"],
        ["C\n7 9\n0 1 2 3 4 5 ", "\n1 1 2 3 4 5 6\n"],
        ["C\n7 9\n0 1 2 3 4 5 6\n1 1 2 3 4 5 6\n", ""],
    ];
    for len in 0..=MOST {
        for which in 0..OF.len().pow(len) {
            let word: Vec<u8> =
                (0..len).map(|place| OF[which / OF.len().pow(place) % OF.len()]).collect();
            for [before, after] in PLACES {
                let text = [before.as_bytes(), &word, after.as_bytes()].concat();
                with(&Call { text, room: 400, met: vec![], wanted: None });
            }
        }
    }
}

/// Each with its answer.
pub fn each_giant(mut with: impl FnMut(&Call)) {
    const MORE: usize = 1 << 16;
    const ROW: &str = "0 1 2 3 4 5 6\n";
    let many = |piece: &str| piece.repeat(MORE);
    let rows: String = (0..=MORE).map(|k| format!("{k} 0 0 0 0 0 0\n")).collect();
    let giants = [
        (0, format!("C{}\n7 9\n{ROW}", many("C"))),
        (0, format!("C\n{}7 9\n{ROW}", many("x\n"))),
        (0, format!("C\n7 9\n{}{ROW}", many("\r\n"))),
        (0, format!("C\n7 9\n{ROW}{}", many("-"))),
        (0, format!("C\n7{} 9\n{ROW}", many("7"))),
        (0, format!("C\n7 {}9\n{ROW}", many("0"))),
        (0, format!("C\n7 9{}\n{}{ROW}", many(" "), many("\t"))),
        (7, format!("C\n7 9{}\n{ROW}", many("0"))),
        (5, format!("C\n7 9\n0 {}", many("1") + &ROW[2..])),
        (11, format!("C\n7 9\n1{}{ROW}", many("0"))),
        (11, format!("C\n7 9{}\n{ROW}", many(" 0"))),
        (11, format!("C\n7 9\n0 1 2 3 4 5 6{}\n", many(" 0"))),
        (11, format!("C\n7 9\n{rows}x0")),
        (12, format!("C\n7 9\n{rows}")),
    ];
    for (answer, text) in giants {
        with(&Call { text: text.into(), room: 1000, met: vec![], wanted: Some(answer) });
    }
}
