//! The clauses' own figures for the leased lines and their check bytes.

use independent::generate::frames::Draft;
use independent::generate::{Random, Sort};
use independent::line::{back, out, place, Parts, BLOCKS, OUTPUT, ROWS, SLOTS, VARIANTS};
use independent::reed_solomon::{check_bytes, generator, is_clean};

/// Parts of the right lengths, all zero.
fn zeros(information: usize, check: usize) -> Parts {
    Parts {
        information: vec![0; information],
        management: vec![0; BLOCKS],
        supervision: vec![0; BLOCKS],
        synchronising: vec![0; SLOTS],
        signalling: vec![0; SLOTS],
        check: vec![0; ROWS * check],
    }
}

/// Each byte of the output array comes back once: by its low byte, then by its high byte.
#[test]
fn each_byte_comes_back_once() {
    for v in VARIANTS {
        let lent = zeros(v.information, v.check);
        let bytes = |shift: usize| -> Vec<u8> { (0..OUTPUT).map(|q| (q >> shift) as u8).collect() };
        let low = back(&bytes(0), v.information, &lent).expect("right lengths");
        let high = back(&bytes(8), v.information, &lent).expect("right lengths");
        let all = |p: Parts| {
            [
                p.information,
                p.management,
                p.supervision,
                p.synchronising,
                p.signalling,
                p.check,
            ]
            .concat()
        };
        let mut places: Vec<usize> = all(high)
            .iter()
            .zip(all(low))
            .map(|(&h, l)| usize::from(h) * 256 + usize::from(l))
            .collect();
        places.sort_unstable();
        assert_eq!(places, (0..OUTPUT).collect::<Vec<_>>());
    }
}

/// T-03's fill: the (FL + 3) x 4 bytes of the logical frame, and FF from there on.
#[test]
fn the_fill_begins_behind_the_logical_frame() {
    let mut random = Random::new(1, Sort::Frame, 0);
    for v in VARIANTS {
        let lent = zeros(v.information, v.check);
        let mut draft = Draft::valid(&mut random);
        draft.table.clear();
        draft.set_fl();
        let frame = draft.frame(&mut random);
        let sent = out(&frame, v.information, &lent, OUTPUT).expect("carried");
        let came = back(&sent, v.information, &lent).expect("right lengths");
        let (logical, fill) = came.information.split_at((draft.fl + 3) * 4);
        assert_eq!(logical, &frame[4..4 + logical.len()]);
        assert!(fill.iter().all(|&byte| byte == 0xFF));
    }
}

/// Five roots, five coefficients below the first; a row with its check bytes is clean, and with one byte changed it is not.
#[test]
fn check_bytes_make_a_row_clean() {
    for v in VARIANTS {
        assert_eq!(generator(v.check).len(), v.check + 1);
        let information: Vec<u8> = (0..v.width).map(|n| (n * 7 + 3) as u8).collect();
        let check = check_bytes(&information, v.check).expect("right lengths");
        let mut row = [information, check].concat();
        assert_eq!(is_clean(&row, v.check), Ok(true));
        row[17] ^= 1;
        assert_eq!(is_clean(&row, v.check), Ok(false));
    }
}

/// The information bytes of figure 9, step 1, all that are legible (row 3, column 121 is not): row, first column, step between the columns, bytes.
const FIGURE_9: [(usize, usize, usize, &[usize]); 27] = [
    (0, 1, 30, &[0, 29, 58, 87, 116, 145, 174, 203]),
    (0, 29, 30, &[28, 57, 86, 115, 144, 173, 202]),
    (0, 234, 1, &[226]),
    (1, 1, 30, &[227, 256, 285, 314, 343, 372, 401, 430]),
    (1, 29, 30, &[255, 284, 313, 342, 371, 400, 429]),
    (1, 234, 1, &[453]),
    (2, 0, 30, &[454, 484, 514, 544, 574, 604, 634, 664]),
    (2, 1, 30, &[455, 485, 515, 545, 575, 605, 635]),
    (2, 234, 1, &[688]),
    (3, 0, 30, &[689, 719, 749, 779, 809, 839, 869, 899]),
    (3, 1, 30, &[690, 720, 750, 780]),
    (3, 151, 30, &[840, 870]),
    (3, 234, 1, &[923]),
    (4, 0, 30, &[924, 954, 984, 1014, 1044, 1074, 1104, 1134]),
    (4, 1, 30, &[925, 955, 985, 1015, 1045, 1075, 1105]),
    (4, 234, 1, &[1158]),
    (5, 0, 30, &[1159, 1189, 1219, 1249, 1279, 1309, 1339, 1369]),
    (5, 1, 30, &[1160, 1190, 1220, 1250, 1280, 1310, 1340]),
    (5, 234, 1, &[1393]),
    (6, 0, 30, &[1394, 1424, 1454, 1484, 1514, 1544, 1574, 1604]),
    (6, 1, 30, &[1395, 1425, 1455, 1485, 1515, 1545, 1575]),
    (6, 234, 1, &[1628]),
    (7, 0, 30, &[1629, 1659, 1689, 1719, 1749, 1779, 1809, 1839]),
    (7, 1, 30, &[1630, 1660, 1690, 1720, 1750, 1780, 1810]),
    (7, 234, 1, &[1863]),
    (8, 1, 30, &[1864, 1893, 1922, 1951, 1980, 2009, 2038]),
    (8, 234, 1, &[2090]),
];

/// Figure 10, step 1, likewise: all of it is legible.
const FIGURE_10: [(usize, usize, usize, &[usize]); 26] = [
    (0, 1, 30, &[0, 29, 58, 87, 116, 145, 174, 203]),
    (0, 29, 30, &[28, 57, 86, 115, 144, 173, 202]),
    (0, 225, 1, &[217]),
    (1, 1, 30, &[218, 247, 276, 305, 334, 363, 392, 421]),
    (1, 29, 30, &[246, 275, 304, 333, 362, 391, 420]),
    (1, 225, 1, &[435]),
    (2, 0, 30, &[436, 466, 496, 526, 556, 586, 616, 646]),
    (2, 1, 30, &[437, 467, 497, 527, 557, 587, 617]),
    (2, 225, 1, &[661]),
    (3, 0, 30, &[662, 692, 722, 752, 782, 812, 842, 872]),
    (3, 1, 30, &[663, 693, 723, 753, 783, 813, 843]),
    (3, 225, 1, &[887]),
    (4, 0, 30, &[888, 918, 948, 978, 1008, 1038, 1068, 1098]),
    (4, 1, 30, &[889, 919, 949, 979, 1009, 1039, 1069]),
    (4, 225, 1, &[1113]),
    (5, 0, 30, &[1114, 1144, 1174, 1204, 1234, 1264, 1294, 1324]),
    (5, 1, 30, &[1115, 1145, 1175, 1205, 1235, 1265, 1295]),
    (5, 225, 1, &[1339]),
    (6, 0, 30, &[1340, 1370, 1400, 1430, 1460, 1490, 1520, 1550]),
    (6, 1, 30, &[1341, 1371, 1401, 1431, 1461, 1491, 1521]),
    (6, 225, 1, &[1565]),
    (7, 0, 30, &[1566, 1596, 1626, 1656, 1686, 1716, 1746, 1776]),
    (7, 1, 30, &[1567, 1597, 1627, 1657, 1687, 1717, 1747]),
    (7, 225, 1, &[1791]),
    (8, 1, 30, &[1792, 1821, 1850, 1879, 1908, 1937, 1966]),
    (8, 225, 1, &[2009]),
];

/// What comes back of an output array with a one in the place of a cell alone, and zeros.
fn cell(v: usize, row: usize, column: usize) -> Parts {
    let v = &VARIANTS[v];
    let mut output = vec![0; OUTPUT];
    output[place(row, column)] = 1;
    back(&output, v.information, &zeros(v.information, v.check)).expect("right lengths")
}

fn ones(bytes: &[u8]) -> usize {
    bytes.iter().filter(|&&b| b == 1).count()
}

#[test]
fn the_cells_of_figures_9_and_10() {
    for (v, figure) in [&FIGURE_9[..], &FIGURE_10[..]].into_iter().enumerate() {
        for &(row, first, step, bytes) in figure {
            for (k, &n) in bytes.iter().enumerate() {
                let parts = cell(v, row, first + step * k);
                assert_eq!(
                    (parts.information[n], ones(&parts.information)),
                    (1, 1),
                    "row {row}, byte {n}"
                );
            }
        }
    }
}

/// In both: M_0,0 to M_7,0 in row 0, S_0,0 to S_7,0 in row 1, M_0,1 to M_7,1 in row 8, in the columns 0, 30, ..; the check bytes of rows 0 to 8 in the last columns.
#[test]
fn management_supervision_and_check_bytes_of_figures_9_and_10() {
    for (v, (first, check)) in [(235, 5), (226, 14)].into_iter().enumerate() {
        for k in 0..8 {
            assert_eq!(cell(v, 0, 30 * k).management[k], 1);
            assert_eq!(cell(v, 1, 30 * k).supervision[k], 1);
            assert_eq!(cell(v, 8, 30 * k).management[8 + k], 1);
        }
        for row in 0..=8 {
            for column in first..240 {
                assert_eq!(cell(v, row, column).check[row * check + column - first], 1);
            }
        }
    }
}

/// Step 3 of both: what stands at 0 to 17 and at 2,047 of the output array.
#[test]
fn the_output_of_figures_9_and_10() {
    let figures: [[usize; 14]; 2] = [
        [
            454, 689, 924, 1159, 1394, 1629, 0, 227, 455, 690, 925, 1160, 1395, 1630,
        ],
        [
            436, 662, 888, 1114, 1340, 1566, 0, 218, 437, 663, 889, 1115, 1341, 1567,
        ],
    ];
    for (v, bytes) in VARIANTS.iter().zip(figures) {
        let mut output: Vec<u8> = (0..OUTPUT).map(|q| q.min(254) as u8).collect();
        output[2047] = 255;
        let parts =
            back(&output, v.information, &zeros(v.information, v.check)).expect("right lengths");
        assert_eq!(parts.synchronising[0], 0);
        assert_eq!(parts.management[0], 1);
        assert_eq!(parts.supervision[0], 2);
        assert_eq!(parts.signalling[0], 16);
        for (q, &n) in (3..16).chain(17..18).zip(&bytes) {
            assert_eq!(parts.information[n], q);
        }
        assert_eq!(parts.check[8 * v.check - 1], 255);
    }
}
