//! The harness's own importer against request Three of document 02, and what its roots are held to.

use crate::importer::imported;
use crate::roots::{hard, root};
use crate::selftest::Tally;
use crate::sheet::{field, Sheet};

/// As the published files are laid out.
const TEXT: &[u8] = b"TWO\r\n\r\nVEHICLE\r\nNUMBER     CAPACITY\r\n  25         200\r\n\r\n\
    CUSTOMER\r\nCUST NO.  XCOORD.  YCOORD.\r\n \r\n\
    \t0      -3         -0          0          0       1236          007   \r\n\
    \t1      0         4         10        912        967         90   ";
const LEN: usize = 16 + 2 * 48 + 72 + 4 * 8;

pub fn run(tally: &mut Tally) {
    sheet(tally);
    answers(tally);
    let right = hard().iter().all(|hard| root(hard.number) == hard.root);
    tally.expect("the processor's roots are nearest", right, true);
}

/// Every byte of a sheet, by its fields.
fn sheet(tally: &mut Tally) {
    let bytes = imported(TEXT, LEN).expect("a text of the form");
    let Sheet { method, rows, vehicles, distances, times } = Sheet::decode(&bytes);
    tally.expect("imported: length", bytes.len(), LEN);
    tally.expect(
        "imported: header",
        bytes[..16].to_vec(),
        [&[2, 0, 1, 0, 1], &[0; 11][..]].concat(),
    );
    tally.expect("imported: method and times", (method, times), (1, None));
    let wholes = rows.iter().map(|row| (row.x, row.y, row.demand, row.marks)).collect();
    tally.expect("imported: rows", wholes, vec![(-3, 0, 0, 3), (0, 4, 10, 2)]);
    let floats = rows.iter().map(|row| [row.service, row.ready, row.due, row.penalty]).collect();
    let want = vec![[7.0, 0.0, 1236.0, 0.0], [90.0, 912.0, 967.0, 0.0]];
    tally.expect("imported: services and windows", floats, want);
    tally.expect("imported: -0 is 0", field::<4>(&bytes, 20), [0; 4]);
    tally.expect("imported: distances", distances, vec![0.0, 5.0, 5.0, 0.0]);
    let of: Vec<_> = vehicles.iter().map(|of| (of.capacity, of.cost_per_distance)).collect();
    tally.expect("imported: the vehicle", of, vec![(200, 1.0)]);
    let zeros = [112..120, 124..128, 136..184].map(|range| bytes[range].iter().all(|&b| b == 0));
    tally.expect("imported: all else of the vehicle", zeros, [true; 3]);
}

/// Texts with their answers: a number of rows, or a refusal.
fn answers(tally: &mut Tally) {
    const ROW: &str = "0 0 0 0 0 0 0";
    let cases: [(&str, Result<usize, u32>); 33] = [
        ("\n1 2\n0 0 0 0 0 0 0", Ok(1)),
        ("1 2\n1 2\n0 0 0 0 0 0 0\n", Ok(1)),
        ("x\r\n-1 2\r\n-0 0 0 0 0 0 0\r\n", Ok(1)),
        ("x\ny\n1 2\n\n0 0 0 0 0 0 0\nz\n01 0 0 0 0 0 0\n-", Ok(2)),
        ("x\n1\t2\n\t0  0 0 0 0 0\t0 \n\r", Ok(1)),
        ("x\n1 2147483647\n0 1000000 -1000000 1000000 1000000000 1000000000 1000000000", Ok(1)),
        ("", Err(11)),
        ("x", Err(11)),
        ("1 2\n0 0 0 0 0 0 0", Err(11)),
        ("x\n1 2\n", Err(11)),
        ("x\n1\n0 0 0 0 0 0 0", Err(11)),
        ("x\n1 2 3\n0 0 0 0 0 0 0", Err(11)),
        ("x\n1 2\n0 0 0 0 0 0", Err(11)),
        ("x\n1 2\n0 0 0 0 0 0 0 0", Err(11)),
        ("x\n1 2\n1 0 0 0 0 0 0", Err(11)),
        ("x\n1 2\n18446744073709551616 0 0 0 0 0 0", Err(11)),
        ("x\n1 2\n0 0 0 0 0 0 0\r", Err(11)),
        ("x\n1 2\n0 0 0 0 0 0 0\r\r\n", Err(11)),
        ("x\n1 2\r0 0 0 0 0 0 0", Err(11)),
        ("x\n1 2\n0 0 0 0 0 0 +0", Err(11)),
        ("x\n1 2\n0 0 0 0 0 0 - 0", Err(11)),
        ("x\n1 2\n0 0 0 0 0 0 0-", Err(11)),
        ("x\n1 2\n0 0 0 0 0 0 0.0", Err(11)),
        ("x\n1 2\n0 0 0 0 0 0 0\0", Err(11)),
        ("x\n1 -2\n0 0 0 0 2 1 0\nVehicle 1", Err(11)),
        ("x\n1 -2\n0 0 0 0 2 1 0", Err(5)),
        ("x\n1 2\n0 1000001 0 0 0 0 0", Err(5)),
        ("x\n1 2\n0 0 -1000001 0 0 0 0", Err(5)),
        ("x\n1 2\n0 0 0 -1 0 0 0", Err(5)),
        ("x\n1 2\n0 0 0 0 0 0 18446744073709551616", Err(5)),
        ("x\n1 2\n0 0 0 0 0 0 100000000000000000000000000000000000000000", Err(5)),
        ("x\n1 2147483648\n0 0 0 0 0 0 0", Err(7)),
        ("x\n1 -1\n0 0 0 0 0 0 0", Err(7)),
    ];
    for (text, want) in cases {
        let len = |rows| 16 + 48 * rows + 72 + 8 * rows * rows;
        let got = imported(text.as_bytes(), 1 << 20).map(|sheet| sheet.len());
        tally.expect(text, got, want.map(len));
        let short = imported(text.as_bytes(), want.map_or(0, |rows| len(rows) - 1)).err();
        tally.expect(text, short, Some(want.err().unwrap_or(4)));
    }
    let long = |rows: usize, more: &str| {
        let rows = (0..rows).map(|k| format!("{k}{}\n", &ROW[1..]));
        let text: String =
            ["x\n1 2\n".into()].into_iter().chain(rows).chain([more.into()]).collect();
        imported(text.as_bytes(), 1 << 20).map(|sheet| sheet.len())
    };
    tally.expect("101 rows", long(101, ""), Ok(86_544));
    tally.expect("102 rows", long(102, ""), Err(12));
    tally.expect("102 rows, the last of another form", long(102, "x0"), Err(11));
}
