//! "Sheets at the edges", packed sheets, a sheet turned, and sheets moved: inputs and outcomes written
//! out by hand.

use crate::gen::picture::Picture;
use crate::gen::put;
use crate::gen::sheet::words;
use crate::gen::turning::Turning;

#[derive(Clone)]
pub struct Edge {
    pub name: &'static str,
    pub file: Vec<u8>,
    pub printed: &'static str,
}

const WITH: u8 = 1;
const WITHOUT: u8 = 0;

/// A two-block header and nothing else.
fn head(kind: u8, pixels: u8, lines: u8, scn: u8) -> Vec<u8> {
    let mut file = vec![0; 1024];
    put(&mut file, 0, &[0x08, 0x09, 0xFE, 0x01, kind, 0]);
    put(&mut file, 184, &[pixels, 0, 0, 0, lines, 0, 0, 0]);
    put(&mut file, 195, &[scn]);
    put(&mut file, 511, &[3]);
    file
}

/// The header of a sheet one pixel wide with so many lines.
fn long(lines: u32) -> Vec<u8> {
    let mut file = head(9, 1, 0, WITH);
    put(&mut file, 188, &lines.to_le_bytes());
    file
}

fn with_words(kind: u8, pixels: u8, lines: u8, scn: u8, raster: &[u16]) -> Vec<u8> {
    let mut file = head(kind, pixels, lines, scn);
    file.extend(words(raster));
    file
}

fn changed(mut file: Vec<u8>, at: usize, bytes: &[u8]) -> Vec<u8> {
    put(&mut file, at, bytes);
    file
}

fn cut(mut file: Vec<u8>, len: usize) -> Vec<u8> {
    file.truncate(len);
    file
}

fn edge(name: &'static str, file: Vec<u8>, printed: &'static str) -> Edge {
    Edge { name, file, printed }
}

pub fn edges() -> Vec<Edge> {
    [usual_edges(), partway_edges(), packed_edges()].concat()
}

fn usual_edges() -> Vec<Edge> {
    let good = with_words(9, 8, 1, WITH, &[0x5900, 5, 1, 0, 3, 2, 3]);
    vec![
        edge("1: empty file", Vec::new(), "refused 11\n"),
        edge(
            "2: WTF 510",
            good.clone(),
            "type 9 pixels 8 lines 1 answer 0 good 1 end 1038\n1 0: 0 0 0 1 1 0 0 0\n",
        ),
        edge("2: WTF 509", changed(good.clone(), 2, &[0xFD, 0x01]), "refused 13\n"),
        edge(
            "3: 3 2 3",
            good.clone(),
            "type 9 pixels 8 lines 1 answer 0 good 1 end 1038\n1 0: 0 0 0 1 1 0 0 0\n",
        ),
        edge(
            "4: 3 2 4",
            with_words(9, 8, 1, WITH, &[0x5900, 5, 1, 0, 3, 2, 4]),
            "type 9 pixels 8 lines 1 answer 1 good 0 end 1038\n1 7: 0 0 0 0 0 0 0 0\n",
        ),
        edge(
            "4: 3",
            with_words(9, 8, 1, WITH, &[0x5900, 3, 1, 0, 3]),
            "type 9 pixels 8 lines 1 answer 1 good 0 end 1034\n1 8: 0 0 0 0 0 0 0 0\n",
        ),
        edge(
            "4: 3 2",
            with_words(9, 8, 1, WITH, &[0x5900, 4, 1, 0, 3, 2]),
            "type 9 pixels 8 lines 1 answer 1 good 0 end 1036\n1 6: 0 0 0 0 0 0 0 0\n",
        ),
        edge(
            "5: 8 0 0",
            with_words(9, 8, 1, WITH, &[0x5900, 5, 1, 0, 8, 0, 0]),
            "type 9 pixels 8 lines 1 answer 0 good 1 end 1038\n1 0: 0 0 0 0 0 0 0 0\n",
        ),
        edge(
            "6: no headers, 3 5 0 8",
            with_words(9, 8, 2, WITHOUT, &[3, 5, 0, 8]),
            "type 9 pixels 8 lines 2 answer 0 good 2 end 1032\n\
             1 0: 0 0 0 1 1 1 1 1\n\
             2 0: 0 0 0 0 0 0 0 0\n",
        ),
        edge(
            "7: no headers, 8 0 0 8",
            with_words(9, 8, 2, WITHOUT, &[8, 0, 0, 8]),
            "type 9 pixels 8 lines 2 answer 0 good 2 end 1032\n\
             1 0: 0 0 0 0 0 0 0 0\n\
             2 0: 0 0 0 0 0 0 0 0\n",
        ),
        edge(
            "7: the same words, one line",
            with_words(9, 8, 1, WITHOUT, &[8, 0, 0, 8]),
            "type 9 pixels 8 lines 1 answer 0 good 1 end 1026\n1 0: 0 0 0 0 0 0 0 0\n",
        ),
        edge(
            "8: W 2, type 9",
            with_words(9, 8, 1, WITH, &[0x5900, 2, 1, 0]),
            "type 9 pixels 8 lines 1 answer 1 good 0 end 1032\n1 6: 0 0 0 0 0 0 0 0\n",
        ),
        edge(
            "8: W 2, type 10",
            with_words(10, 8, 1, WITH, &[0x5900, 2, 1, 0]),
            "type 10 pixels 8 lines 1 answer 1 good 0 end 1032\n1 8: 0 0 0 0 0 0 0 0\n",
        ),
        edge(
            "8: W 1",
            with_words(9, 8, 2, WITH, &[0x5900, 1, 1, 0, 0x5900, 3, 2, 0, 8]),
            "type 9 pixels 8 lines 2 answer 1 good 0 end 1024\n\
             1 3: 0 0 0 0 0 0 0 0\n\
             2 9: 0 0 0 0 0 0 0 0\n",
        ),
        edge(
            "9: 7 8",
            with_words(10, 8, 1, WITH, &[0x5900, 4, 1, 0, 7, 8]),
            "type 10 pixels 8 lines 1 answer 0 good 1 end 1036\n1 0: 7 7 7 7 7 7 7 7\n",
        ),
        edge(
            "9: 8 7",
            with_words(10, 8, 1, WITH, &[0x5900, 4, 1, 0, 8, 7]),
            "type 10 pixels 8 lines 1 answer 1 good 0 end 1036\n1 8: 0 0 0 0 0 0 0 0\n",
        ),
        edge(
            "10: 5 6 7 99",
            with_words(2, 3, 1, WITH, &[0x5900, 4, 1, 0, 0x0605, 0x6307]),
            "type 2 pixels 3 lines 1 answer 0 good 1 end 1036\n1 0: 5 6 7\n",
        ),
        edge(
            "12: DRS -200",
            changed(good.clone(), 192, &[0x38, 0xFF]),
            "type 9 pixels 8 lines 1 answer 0 good 1 end 1038\n1 0: 0 0 0 1 1 0 0 0\n",
        ),
        edge(
            "the printed example",
            with_words(
                9,
                8,
                3,
                WITH,
                &[0x5900, 5, 1, 0, 3, 2, 3, 0x5900, 5, 2, 0, 0, 8, 0, 0x5900, 5, 3, 0, 3, 2, 4],
            ),
            "type 9 pixels 8 lines 3 answer 1 good 2 end 1066\n\
             1 0: 0 0 0 1 1 0 0 0\n\
             2 0: 1 1 1 1 1 1 1 1\n\
             3 7: 0 0 0 0 0 0 0 0\n",
        ),
        edge(
            "nothing after the header",
            head(9, 8, 3, WITH),
            "type 9 pixels 8 lines 3 answer 1 good 0 end 1024\n\
             1 1: 0 0 0 0 0 0 0 0\n\
             2 9: 0 0 0 0 0 0 0 0\n\
             3 9: 0 0 0 0 0 0 0 0\n",
        ),
        edge(
            "seven bytes and a wrong identifier",
            cut(with_words(9, 8, 1, WITH, &[0xD900, 3, 1, 0, 8]), 1031),
            "type 9 pixels 8 lines 1 answer 1 good 0 end 1024\n1 1: 0 0 0 0 0 0 0 0\n",
        ),
        edge(
            "eight bytes and a wrong identifier",
            cut(with_words(9, 8, 1, WITH, &[0xD900, 3, 1, 0, 8]), 1032),
            "type 9 pixels 8 lines 1 answer 1 good 0 end 1024\n1 2: 0 0 0 0 0 0 0 0\n",
        ),
        edge(
            "no headers, ON to the end and no OFF run",
            with_words(9, 8, 1, WITHOUT, &[3, 5]),
            "type 9 pixels 8 lines 1 answer 1 good 0 end 1024\n1 1: 0 0 0 0 0 0 0 0\n",
        ),
        edge(
            "no headers, ON to the end and an OFF run too many",
            with_words(9, 8, 2, WITHOUT, &[3, 5, 1, 7]),
            "type 9 pixels 8 lines 2 answer 1 good 0 end 1024\n\
             1 7: 0 0 0 0 0 0 0 0\n\
             2 9: 0 0 0 0 0 0 0 0\n",
        ),
        edge(
            "no headers, a value without its count",
            with_words(10, 8, 2, WITHOUT, &[7, 8, 1, 0, 7]),
            "type 10 pixels 8 lines 2 answer 1 good 1 end 1028\n\
             1 0: 7 7 7 7 7 7 7 7\n\
             2 1: 0 0 0 0 0 0 0 0\n",
        ),
        edge(
            "no headers, odd lines of bytes",
            with_words(2, 3, 2, WITHOUT, &[0x0605, 0x0807, 0x0A09]),
            "type 2 pixels 3 lines 2 answer 0 good 2 end 1030\n1 0: 5 6 7\n2 0: 8 9 10\n",
        ),
        edge(
            "an even body above P is of a wrong count",
            with_words(9, 8, 1, WITH, &[0x5900, 4, 1, 0, 8, 8]),
            "type 9 pixels 8 lines 1 answer 1 good 0 end 1036\n1 6: 0 0 0 0 0 0 0 0\n",
        ),
        edge(
            "a total that is P again in 16 bits",
            with_words(9, 8, 1, WITH, &[0x5900, 5, 1, 0, 8, 65_535, 1]),
            "type 9 pixels 8 lines 1 answer 1 good 0 end 1038\n1 7: 0 0 0 0 0 0 0 0\n",
        ),
        edge("no lines", head(9, 64, 0, WITH), "refused 20\n"),
        edge("more lines than may be", long(1_000_001), "refused 20\n"),
        edge("as many lines as may be", long(1_000_000), "refused 23\n"),
        edge("lines past 65,535", long(65_536), "refused 23\n"),
        edge(
            "both buffers too short",
            changed(head(9, 64, 0, WITH), 188, &[0x01, 0x01]),
            "refused 23\n",
        ),
        edge("too many lines", changed(head(9, 1, 0, WITH), 188, &[0x01, 0x01]), "refused 24\n"),
    ]
}

/// A sheet with headers, by the offset and the body's words of each line.
fn starting(kind: u8, pixels: u8, lines: &[(u16, &[u16])]) -> Vec<u8> {
    let mut file = head(kind, pixels, lines.len() as u8, WITH);
    for (number, (offset, body)) in (1..).zip(lines) {
        file.extend(words(&[0x5900, body.len() as u16 + 2, number, *offset]));
        file.extend(words(body));
    }
    file
}

/// Lines that start partway.
fn partway_edges() -> Vec<Edge> {
    // The first line's number is two bytes at 1028.
    let misnumbered = |file| changed(file, 1028, &[2]);
    vec![
        edge(
            "bytes from column 3, and a spare one",
            starting(2, 8, &[(3, &[0x0605, 0x0807, 0x6309])]),
            "type 2 pixels 8 lines 1 answer 0 good 1 end 1038\n1 0: 0 0 0 5 6 7 8 9\n",
        ),
        edge(
            "words from column 3",
            starting(3, 8, &[(3, &[500, 0, 700, 800, 65_535])]),
            "type 3 pixels 8 lines 1 answer 0 good 1 end 1042\n1 0: 0 0 0 500 0 700 800 65535\n",
        ),
        edge(
            "runs from column 3",
            starting(9, 8, &[(3, &[0, 2, 1, 2, 0])]),
            "type 9 pixels 8 lines 1 answer 0 good 1 end 1042\n1 0: 0 0 0 1 1 0 1 1\n",
        ),
        edge(
            "pairs from column 3",
            starting(10, 8, &[(3, &[7, 2, 300, 3])]),
            "type 10 pixels 8 lines 1 answer 0 good 1 end 1040\n1 0: 0 0 0 7 7 300 300 300\n",
        ),
        edge(
            "bytes under offsets",
            starting(
                2,
                8,
                &[
                    (3, &[0x0201, 0x0403, 0x0605, 0x0807]),
                    (3, &[0x0201, 0x0403]),
                    (4, &[0x0605, 0x0807]),
                    (4, &[0x0605, 0x0807, 0x6309]),
                    (1, &[0x0201, 0x0403, 0x0605, 0x6307]),
                    (7, &[0x6305]),
                ],
            ),
            "type 2 pixels 8 lines 6 answer 1 good 3 end 1104\n\
             1 6: 0 0 0 0 0 0 0 0\n\
             2 6: 0 0 0 0 0 0 0 0\n\
             3 0: 0 0 0 0 5 6 7 8\n\
             4 6: 0 0 0 0 0 0 0 0\n\
             5 0: 0 1 2 3 4 5 6 7\n\
             6 0: 0 0 0 0 0 0 0 5\n",
        ),
        edge(
            "bytes of an odd line",
            starting(
                2,
                3,
                &[
                    (1, &[0x0605]),
                    (1, &[0x0605, 0x6307]),
                    (2, &[0x6305]),
                    (3, &[]),
                    (3, &[0x6305]),
                    (4, &[]),
                ],
            ),
            "type 2 pixels 3 lines 6 answer 1 good 3 end 1082\n\
             1 0: 0 5 6\n\
             2 6: 0 0 0\n\
             3 0: 0 0 5\n\
             4 0: 0 0 0\n\
             5 6: 0 0 0\n\
             6 5: 0 0 0\n",
        ),
        edge(
            "words under offsets",
            starting(
                3,
                8,
                &[
                    (3, &[1, 2, 3, 4, 5, 6, 7, 8]),
                    (3, &[1, 2, 3, 4]),
                    (3, &[1, 2, 3, 4, 5, 6]),
                    (7, &[500]),
                ],
            ),
            "type 3 pixels 8 lines 4 answer 1 good 1 end 1094\n\
             1 6: 0 0 0 0 0 0 0 0\n\
             2 6: 0 0 0 0 0 0 0 0\n\
             3 6: 0 0 0 0 0 0 0 0\n\
             4 0: 0 0 0 0 0 0 0 500\n",
        ),
        edge(
            "runs under offsets",
            starting(
                9,
                8,
                &[
                    (3, &[3, 2, 3]),
                    (3, &[3, 2, 1]),
                    (3, &[3, 1, 0]),
                    (3, &[3, 2]),
                    (3, &[]),
                    (3, &[1, 2, 2]),
                    (7, &[0, 1, 0]),
                ],
            ),
            "type 9 pixels 8 lines 7 answer 1 good 2 end 1114\n\
             1 7: 0 0 0 0 0 0 0 0\n\
             2 7: 0 0 0 0 0 0 0 0\n\
             3 8: 0 0 0 0 0 0 0 0\n\
             4 6: 0 0 0 0 0 0 0 0\n\
             5 6: 0 0 0 0 0 0 0 0\n\
             6 0: 0 0 0 0 1 1 0 0\n\
             7 0: 0 0 0 0 0 0 0 1\n",
        ),
        edge(
            "pairs under offsets",
            starting(
                10,
                8,
                &[
                    (3, &[7, 8]),
                    (3, &[7, 6]),
                    (3, &[7, 4]),
                    (3, &[7, 5, 9]),
                    (3, &[]),
                    (3, &[7, 0, 9, 5]),
                    (7, &[300, 1]),
                ],
            ),
            "type 10 pixels 8 lines 7 answer 1 good 2 end 1110\n\
             1 7: 0 0 0 0 0 0 0 0\n\
             2 7: 0 0 0 0 0 0 0 0\n\
             3 8: 0 0 0 0 0 0 0 0\n\
             4 6: 0 0 0 0 0 0 0 0\n\
             5 8: 0 0 0 0 0 0 0 0\n\
             6 0: 0 0 0 9 9 9 9 9\n\
             7 0: 0 0 0 0 0 0 0 300\n",
        ),
        edge(
            "bytes from column P",
            starting(2, 8, &[(8, &[0x0605]), (8, &[0x0201, 0x0403, 0x0605, 0x0807]), (8, &[])]),
            "type 2 pixels 8 lines 3 answer 1 good 1 end 1058\n\
             1 6: 0 0 0 0 0 0 0 0\n\
             2 6: 0 0 0 0 0 0 0 0\n\
             3 0: 0 0 0 0 0 0 0 0\n",
        ),
        edge(
            "words from column P",
            starting(3, 8, &[(8, &[5]), (8, &[1, 2, 3, 4, 5, 6, 7, 8]), (8, &[])]),
            "type 3 pixels 8 lines 3 answer 1 good 1 end 1066\n\
             1 6: 0 0 0 0 0 0 0 0\n\
             2 6: 0 0 0 0 0 0 0 0\n\
             3 0: 0 0 0 0 0 0 0 0\n",
        ),
        edge(
            "runs from column P",
            starting(
                9,
                8,
                &[(8, &[]), (8, &[1]), (8, &[0, 0]), (8, &[0, 1, 0]), (8, &[0, 0, 0]), (8, &[0])],
            ),
            "type 9 pixels 8 lines 6 answer 1 good 2 end 1092\n\
             1 6: 0 0 0 0 0 0 0 0\n\
             2 7: 0 0 0 0 0 0 0 0\n\
             3 6: 0 0 0 0 0 0 0 0\n\
             4 7: 0 0 0 0 0 0 0 0\n\
             5 0: 0 0 0 0 0 0 0 0\n\
             6 0: 0 0 0 0 0 0 0 0\n",
        ),
        edge(
            "pairs from column P",
            starting(
                10,
                8,
                &[
                    (8, &[7, 1]),
                    (8, &[7]),
                    (8, &[7, 0, 7]),
                    (8, &[7, 0]),
                    (8, &[7, 0, 9, 0]),
                    (8, &[]),
                ],
            ),
            "type 10 pixels 8 lines 6 answer 1 good 3 end 1096\n\
             1 7: 0 0 0 0 0 0 0 0\n\
             2 6: 0 0 0 0 0 0 0 0\n\
             3 6: 0 0 0 0 0 0 0 0\n\
             4 0: 0 0 0 0 0 0 0 0\n\
             5 0: 0 0 0 0 0 0 0 0\n\
             6 0: 0 0 0 0 0 0 0 0\n",
        ),
        edge(
            "all lines from column P",
            starting(9, 8, &[(8, &[0]), (8, &[0])]),
            "type 9 pixels 8 lines 2 answer 0 good 2 end 1044\n\
             1 0: 0 0 0 0 0 0 0 0\n\
             2 0: 0 0 0 0 0 0 0 0\n",
        ),
        // Bodies for no pixels, for the whole line, and for 8 - 65,535 in 16 bits; the chain goes on.
        edge(
            "bytes past column P",
            misnumbered(starting(
                2,
                8,
                &[
                    (9, &[]),
                    (9, &[]),
                    (9, &[0x0201, 0x0403, 0x0605, 0x0807]),
                    (65_535, &[]),
                    (65_535, &[0x0201, 0x0403, 0x0605, 0x0807, 0x6309]),
                    (0, &[0x0201, 0x0403, 0x0605, 0x0807]),
                ],
            )),
            "type 2 pixels 8 lines 6 answer 1 good 1 end 1098\n\
             1 4: 0 0 0 0 0 0 0 0\n\
             2 5: 0 0 0 0 0 0 0 0\n\
             3 5: 0 0 0 0 0 0 0 0\n\
             4 5: 0 0 0 0 0 0 0 0\n\
             5 5: 0 0 0 0 0 0 0 0\n\
             6 0: 1 2 3 4 5 6 7 8\n",
        ),
        edge(
            "words past column P",
            misnumbered(starting(
                3,
                8,
                &[
                    (9, &[]),
                    (9, &[]),
                    (9, &[1, 2, 3, 4, 5, 6, 7, 8]),
                    (65_535, &[1, 2, 3, 4, 5, 6, 7, 8, 9]),
                    (5, &[600, 700, 800]),
                ],
            )),
            "type 3 pixels 8 lines 5 answer 1 good 1 end 1104\n\
             1 4: 0 0 0 0 0 0 0 0\n\
             2 5: 0 0 0 0 0 0 0 0\n\
             3 5: 0 0 0 0 0 0 0 0\n\
             4 5: 0 0 0 0 0 0 0 0\n\
             5 0: 0 0 0 0 0 600 700 800\n",
        ),
        edge(
            "runs past column P",
            misnumbered(starting(
                9,
                8,
                &[
                    (9, &[0]),
                    (9, &[0]),
                    (9, &[3, 2, 3]),
                    (9, &[3, 2]),
                    (9, &[]),
                    (65_535, &[0]),
                    (65_535, &[9]),
                    (0, &[3, 2, 3]),
                ],
            )),
            "type 9 pixels 8 lines 8 answer 1 good 1 end 1112\n\
             1 4: 0 0 0 0 0 0 0 0\n\
             2 5: 0 0 0 0 0 0 0 0\n\
             3 5: 0 0 0 0 0 0 0 0\n\
             4 5: 0 0 0 0 0 0 0 0\n\
             5 5: 0 0 0 0 0 0 0 0\n\
             6 5: 0 0 0 0 0 0 0 0\n\
             7 5: 0 0 0 0 0 0 0 0\n\
             8 0: 0 0 0 1 1 0 0 0\n",
        ),
        edge(
            "pairs past column P",
            misnumbered(starting(
                10,
                8,
                &[
                    (9, &[7, 0]),
                    (9, &[]),
                    (9, &[7, 8]),
                    (9, &[7]),
                    (65_535, &[7, 9]),
                    (256, &[7, 8]),
                    (5, &[7, 3]),
                ],
            )),
            "type 10 pixels 8 lines 7 answer 1 good 1 end 1102\n\
             1 4: 0 0 0 0 0 0 0 0\n\
             2 5: 0 0 0 0 0 0 0 0\n\
             3 5: 0 0 0 0 0 0 0 0\n\
             4 5: 0 0 0 0 0 0 0 0\n\
             5 5: 0 0 0 0 0 0 0 0\n\
             6 5: 0 0 0 0 0 0 0 0\n\
             7 0: 0 0 0 0 0 7 7 7\n",
        ),
    ]
}

/// Type 1. Words are written as they read, the leftmost pixel first: 1800h is 0001 1000 0000 0000.
fn packed_edges() -> Vec<Edge> {
    vec![
        edge(
            "P 8",
            starting(1, 8, &[(0, &[0x1800]), (0, &[0xFF00]), (0, &[0x8100])]),
            "type 1 pixels 8 lines 3 answer 0 good 3 end 1054\n\
             1 0: 0 0 0 1 1 0 0 0\n\
             2 0: 1 1 1 1 1 1 1 1\n\
             3 0: 1 0 0 0 0 0 0 1\n",
        ),
        edge(
            "P 8, byte by byte: the first pixel is the top of the second byte",
            [head(1, 8, 1, WITHOUT), vec![0x00, 0x80]].concat(),
            "type 1 pixels 8 lines 1 answer 0 good 1 end 1026\n1 0: 1 0 0 0 0 0 0 0\n",
        ),
        edge(
            "P 16",
            with_words(1, 16, 2, WITHOUT, &[0x8001, 0x00FF]),
            "type 1 pixels 16 lines 2 answer 0 good 2 end 1028\n\
             1 0: 1 0 0 0 0 0 0 0 0 0 0 0 0 0 0 1\n\
             2 0: 0 0 0 0 0 0 0 0 1 1 1 1 1 1 1 1\n",
        ),
        edge(
            "P 17",
            with_words(1, 17, 2, WITHOUT, &[0x0001, 0x8000, 0xFFFF, 0x0000]),
            "type 1 pixels 17 lines 2 answer 0 good 2 end 1032\n\
             1 0: 0 0 0 0 0 0 0 0 0 0 0 0 0 0 0 1 1\n\
             2 0: 1 1 1 1 1 1 1 1 1 1 1 1 1 1 1 1 0\n",
        ),
        edge(
            "P 17, with headers and other counts of words",
            starting(
                1,
                17,
                &[(0, &[0x0001, 0x8000]), (0, &[0x0001]), (0, &[0, 0, 0]), (0, &[]), (0, &[0, 0])],
            ),
            "type 1 pixels 17 lines 5 answer 1 good 2 end 1080\n\
             1 0: 0 0 0 0 0 0 0 0 0 0 0 0 0 0 0 1 1\n\
             2 6: 0 0 0 0 0 0 0 0 0 0 0 0 0 0 0 0 0\n\
             3 6: 0 0 0 0 0 0 0 0 0 0 0 0 0 0 0 0 0\n\
             4 6: 0 0 0 0 0 0 0 0 0 0 0 0 0 0 0 0 0\n\
             5 0: 0 0 0 0 0 0 0 0 0 0 0 0 0 0 0 0 0\n",
        ),
        edge(
            "spare bits",
            starting(1, 8, &[(0, &[0x1880]), (0, &[0x1801]), (0, &[0x18FF]), (0, &[0x1800])]),
            "type 1 pixels 8 lines 4 answer 1 good 1 end 1064\n\
             1 10: 0 0 0 0 0 0 0 0\n\
             2 10: 0 0 0 0 0 0 0 0\n\
             3 10: 0 0 0 0 0 0 0 0\n\
             4 0: 0 0 0 1 1 0 0 0\n",
        ),
        edge(
            "spare bits, no headers: the chain goes on",
            with_words(1, 8, 4, WITHOUT, &[0x1880, 0x1800, 0x0001, 0xFF00]),
            "type 1 pixels 8 lines 4 answer 1 good 2 end 1032\n\
             1 10: 0 0 0 0 0 0 0 0\n\
             2 0: 0 0 0 1 1 0 0 0\n\
             3 10: 0 0 0 0 0 0 0 0\n\
             4 0: 1 1 1 1 1 1 1 1\n",
        ),
        edge(
            "no headers, a spare bit and then nothing",
            with_words(1, 17, 3, WITHOUT, &[0xFFFF, 0xC000, 0xFFFF]),
            "type 1 pixels 17 lines 3 answer 1 good 0 end 1028\n\
             1 10: 0 0 0 0 0 0 0 0 0 0 0 0 0 0 0 0 0\n\
             2 1: 0 0 0 0 0 0 0 0 0 0 0 0 0 0 0 0 0\n\
             3 9: 0 0 0 0 0 0 0 0 0 0 0 0 0 0 0 0 0\n",
        ),
        edge(
            "no headers, a missing last word",
            with_words(1, 17, 2, WITHOUT, &[0x0001, 0x8000, 0x0001]),
            "type 1 pixels 17 lines 2 answer 1 good 1 end 1028\n\
             1 0: 0 0 0 0 0 0 0 0 0 0 0 0 0 0 0 1 1\n\
             2 1: 0 0 0 0 0 0 0 0 0 0 0 0 0 0 0 0 0\n",
        ),
        edge(
            "no headers, half of a last word with a spare bit",
            cut(with_words(1, 8, 2, WITHOUT, &[0x1800, 0x1801]), 1027),
            "type 1 pixels 8 lines 2 answer 1 good 1 end 1026\n\
             1 0: 0 0 0 1 1 0 0 0\n\
             2 1: 0 0 0 0 0 0 0 0\n",
        ),
        edge(
            "a wrong count comes before a spare bit",
            starting(1, 8, &[(0, &[0x1801, 0]), (0, &[0, 1]), (0, &[0x1800, 0])]),
            "type 1 pixels 8 lines 3 answer 1 good 0 end 1060\n\
             1 6: 0 0 0 0 0 0 0 0\n\
             2 6: 0 0 0 0 0 0 0 0\n\
             3 6: 0 0 0 0 0 0 0 0\n",
        ),
        edge(
            "number and offset come before a spare bit",
            // The first line's number is two bytes at 1028.
            changed(starting(1, 8, &[(0, &[0x1801]), (9, &[0x1801]), (9, &[])]), 1028, &[2]),
            "type 1 pixels 8 lines 3 answer 1 good 0 end 1052\n\
             1 4: 0 0 0 0 0 0 0 0\n\
             2 5: 0 0 0 0 0 0 0 0\n\
             3 5: 0 0 0 0 0 0 0 0\n",
        ),
        edge(
            "words from column 3: DC00h has a sixth pixel",
            starting(1, 8, &[(3, &[0xD800]), (3, &[0xDC00]), (3, &[0x1B00]), (3, &[])]),
            "type 1 pixels 8 lines 4 answer 1 good 1 end 1062\n\
             1 0: 0 0 0 1 1 0 1 1\n\
             2 10: 0 0 0 0 0 0 0 0\n\
             3 10: 0 0 0 0 0 0 0 0\n\
             4 6: 0 0 0 0 0 0 0 0\n",
        ),
        edge(
            "as few words as hold P less the offset",
            starting(
                1,
                18,
                &[(2, &[0x8001]), (2, &[0x8001, 0]), (1, &[0x8001, 0x8000]), (1, &[0x8001])],
            ),
            "type 1 pixels 18 lines 4 answer 1 good 2 end 1068\n\
             1 0: 0 0 1 0 0 0 0 0 0 0 0 0 0 0 0 0 0 1\n\
             2 6: 0 0 0 0 0 0 0 0 0 0 0 0 0 0 0 0 0 0\n\
             3 0: 0 1 0 0 0 0 0 0 0 0 0 0 0 0 0 0 1 1\n\
             4 6: 0 0 0 0 0 0 0 0 0 0 0 0 0 0 0 0 0 0\n",
        ),
        edge(
            "packed words from column P",
            starting(1, 8, &[(8, &[]), (8, &[0]), (8, &[0x8000]), (7, &[0x8000]), (7, &[0x4000])]),
            "type 1 pixels 8 lines 5 answer 1 good 2 end 1072\n\
             1 0: 0 0 0 0 0 0 0 0\n\
             2 6: 0 0 0 0 0 0 0 0\n\
             3 6: 0 0 0 0 0 0 0 0\n\
             4 0: 0 0 0 0 0 0 0 1\n\
             5 10: 0 0 0 0 0 0 0 0\n",
        ),
        edge(
            "W 2 and W 1, type 1",
            with_words(1, 8, 3, WITH, &[0x5900, 2, 1, 0, 0x5900, 1, 2, 0, 0x1800]),
            "type 1 pixels 8 lines 3 answer 1 good 0 end 1032\n\
             1 6: 0 0 0 0 0 0 0 0\n\
             2 3: 0 0 0 0 0 0 0 0\n\
             3 9: 0 0 0 0 0 0 0 0\n",
        ),
    ]
}

/// A picture and all that the writing program prints for it.
pub struct WrittenEdge {
    pub name: &'static str,
    pub picture: Picture,
    pub printed: Vec<u8>,
}

const FILL: u8 = 0xEE;

/// The header that the writer makes: above what a reader needs, the identity matrix and the
/// aspect ratio, each of whose ones is 3FF0h on top of six zero bytes.
fn written_head(kind: u8, ppl: u16, scn: u8) -> Vec<u8> {
    let mut file = head(kind, 0, 1, scn);
    put(&mut file, 184, &ppl.to_le_bytes());
    for at in [62, 102, 142, 182, 526] {
        put(&mut file, at, &[0xF0, 0x3F]);
    }
    file
}

/// One line of pixels, the words its raster data must be, and room for two bytes more.
fn written(name: &'static str, kind: u8, scn: u8, pixels: Vec<u16>, raster: &[u16]) -> WrittenEdge {
    let mut file = written_head(kind, pixels.len() as u16, scn);
    file.extend(words(raster));
    let mut printed = format!("written {}\n", file.len()).into_bytes();
    printed.extend(&file);
    printed.extend([FILL, FILL]);
    let mut picture = Picture::plain(kind.into(), pixels.len(), 1, scn.into(), pixels);
    picture.room = file.len() as u32 + 2;
    picture.fill = FILL;
    WrittenEdge { name, picture, printed }
}

pub fn written_edges() -> Vec<WrittenEdge> {
    let off = vec![0; 32_768];
    let on = vec![1; 32_768];
    let widest: Vec<u16> = (0..65_533).collect();
    let mut long_line = vec![0x5900, 65_535, 1, 0];
    long_line.extend(&widest);
    let mut packed_line = vec![0x5900, 4_098, 1, 0];
    packed_line.extend(vec![0xFFFF; 4_095]);
    packed_line.push(0xFFFE);
    let mut all = vec![
        written("11: OFF, no headers", 9, WITHOUT, off.clone(), &[32_767, 0, 1]),
        written("11: ON, no headers", 9, WITHOUT, on.clone(), &[0, 32_767, 0, 1, 0]),
        written("11: OFF", 9, WITH, off.clone(), &[0x5900, 5, 1, 0, 32_767, 0, 1]),
        written("11: ON", 9, WITH, on.clone(), &[0x5900, 7, 1, 0, 0, 32_767, 0, 1, 0]),
        written("two full pieces", 9, WITHOUT, vec![0; 65_534], &[32_767, 0, 32_767]),
        written("two full pieces, ON", 9, WITHOUT, vec![1; 65_534], &[0, 32_767, 0, 32_767, 0]),
        written("two full pieces and one", 9, WITHOUT, vec![0; 65_535], &[32_767, 0, 32_767, 0, 1]),
        written("just whole", 9, WITHOUT, vec![1; 32_767], &[0, 32_767, 0]),
        written("pairs in pieces", 10, WITHOUT, vec![7; 32_768], &[7, 32_767, 7, 1]),
        written(
            "pairs in full pieces",
            10,
            WITH,
            vec![7; 65_534],
            &[0x5900, 6, 1, 0, 7, 32_767, 7, 32_767],
        ),
        written("runs", 9, WITHOUT, vec![0, 0, 1, 0], &[2, 1, 1]),
        written("runs that end ON", 9, WITHOUT, vec![1, 0, 1], &[0, 1, 1, 1, 0]),
        written("a spare byte", 2, WITH, vec![5, 6, 7], &[0x5900, 4, 1, 0, 0x0605, 0x0007]),
        written("14: 65,533 words", 3, WITH, widest, &long_line),
        written("packed", 1, WITHOUT, vec![0, 0, 0, 1, 1, 0, 0, 0], &[0x1800]),
        written("packed, one word", 1, WITH, vec![1; 16], &[0x5900, 3, 1, 0, 0xFFFF]),
        written("packed, one pixel more", 1, WITH, vec![1; 17], &[0x5900, 4, 1, 0, 0xFFFF, 0x8000]),
        written("packed, one pixel", 1, WITHOUT, vec![1], &[0x8000]),
        written("packed, the widest", 1, WITH, vec![1; 65_535], &packed_line),
    ];
    let mut picture = Picture::plain(1, 3, 1, 1, vec![1, 0, 2]);
    picture.room = 1_034;
    picture.fill = FILL;
    let printed = [&b"refused 26\n"[..], &[FILL; 1_034]].concat();
    all.push(WrittenEdge { name: "packed, a pixel of 2", picture, printed });
    let mut picture = Picture::plain(3, 65_534, 1, 1, vec![9; 65_534]);
    picture.room = 133_000;
    picture.fill = FILL;
    let mut printed = b"refused 27\n".to_vec();
    printed.extend([FILL; 133_000]);
    all.push(WrittenEdge { name: "14: 65,534 words", picture, printed });
    for (name, nol, head) in [
        ("more lines than may be", 1_000_001, "refused 20\n"),
        ("as many lines as may be, one pixel", 1_000_000, "refused 23\n"),
        ("65,536 lines, one pixel", 65_536, "refused 23\n"),
    ] {
        let plain = Picture::plain(2, 1, 1, 0, vec![9]);
        let picture = Picture { nol, room: 1_100, fill: FILL, ..plain };
        let printed = [head.as_bytes(), &[FILL; 1_100]].concat();
        all.push(WrittenEdge { name, picture, printed });
    }
    all
}

/// A turning and all that the turning program prints for it.
pub struct TurnedEdge {
    pub name: String,
    pub turning: Turning,
    pub printed: Vec<u8>,
}

/// The sheet whose lines are 1 2 3 and 4 5 6, upright, for SLO from 0 to 7.
const UPRIGHT: [&str; 8] = [
    "1 4 / 2 5 / 3 6",
    "4 1 / 5 2 / 6 3",
    "3 6 / 2 5 / 1 4",
    "6 3 / 5 2 / 4 1",
    "1 2 3 / 4 5 6",
    "3 2 1 / 6 5 4",
    "4 5 6 / 1 2 3",
    "6 5 4 / 3 2 1",
];

/// What the two pixels hold that the buffer filled has to spare.
const STAYS: u16 = 0xBEEF;

/// That sheet, one way and the other, and calls for it that are refused.
pub fn turned_edges() -> Vec<TurnedEdge> {
    let sheet = vec![1, 2, 3, 4, 5, 6];
    let mut all = Vec::new();
    for (slo, picture) in UPRIGHT.iter().enumerate() {
        let rows: Vec<Vec<u16>> = picture.split(" / ").map(numbers).collect();
        let head = format!("turned {} {}\n", rows[0].len(), rows.len());
        let picture = rows.concat();
        let mut add = |way, name: &str, from: &[u16], to: &[u16]| {
            let turning = small(way, slo as u32, from.to_vec());
            let printed = printed(&head, &[to, &[STAYS, STAYS]].concat());
            all.push(TurnedEdge { name: format!("{name}, SLO {slo}"), turning, printed });
        };
        add(0, "upright", &sheet, &picture);
        add(1, "back", &picture, &sheet);
    }
    for way in [0, 1] {
        let plain = small(way, 0, sheet.clone());
        let short = Turning { pixels: sheet[..5].to_vec(), ..plain.clone() };
        for (name, turning, head) in [
            ("SLO 8", Turning { slo: 8, ..plain.clone() }, "refused 17\n"),
            ("PPL 0", Turning { ppl: 0, ..plain.clone() }, "refused 19\n"),
            ("PPL 65,539", Turning { ppl: 65_539, ..plain.clone() }, "refused 19\n"),
            ("NOL 0", Turning { nol: 0, ..plain.clone() }, "refused 20\n"),
            ("NOL 1,000,001", Turning { nol: 1_000_001, ..plain.clone() }, "refused 20\n"),
            ("NOL 1,048,578", Turning { nol: 1_048_578, ..plain.clone() }, "refused 20\n"),
            ("NOL 1,000,000", Turning { nol: 1_000_000, ..plain.clone() }, "refused 23\n"),
            ("NOL 65,538", Turning { nol: 65_538, ..plain.clone() }, "refused 23\n"),
            ("five pixels to be read", short.clone(), "refused 23\n"),
            ("five pixels to be filled", Turning { room: 5, ..plain }, "refused 31\n"),
            ("five pixels each", Turning { room: 5, ..short }, "refused 23\n"),
        ] {
            let printed = printed(head, &vec![STAYS; turning.room as usize]);
            all.push(TurnedEdge { name: name.to_string(), turning, printed });
        }
    }
    all
}

fn numbers(text: &str) -> Vec<u16> {
    text.split(' ').map(|word| word.parse().expect("a picture is of numbers")).collect()
}

/// A turning of two lines of three pixels, with two pixels of room to spare.
fn small(way: u32, slo: u32, pixels: Vec<u16>) -> Turning {
    Turning { way, slo, ppl: 3, nol: 2, pixels, room: 8, fill: u32::from(STAYS) }
}

fn printed(head: &str, filled: &[u16]) -> Vec<u8> {
    [head.as_bytes(), &words(filled)].concat()
}

/// A sheet to be moved, and what comes of it: the moved sheet, or a number.
#[derive(Clone)]
pub struct MovedEdge {
    pub name: &'static str,
    pub file: Vec<u8>,
    /// Bytes of output lent.
    pub room: usize,
    pub outcome: Result<Vec<u8>, u32>,
}

/// With five bytes of room to spare.
fn moved(name: &'static str, file: Vec<u8>, to: Vec<u8>) -> MovedEdge {
    MovedEdge { name, file, room: to.len() + 5, outcome: Ok(to) }
}

/// With more room than any of these needs.
fn unmoved(name: &'static str, number: u32, file: Vec<u8>) -> MovedEdge {
    MovedEdge { name, file, room: 200_000, outcome: Err(number) }
}

/// A sheet of wide lines, as its words.
fn wide(kind: u8, pixels: u16, lines: u8, scn: u8, raster: &[u16]) -> Vec<u8> {
    changed(with_words(kind, 0, lines, scn, raster), 184, &pixels.to_le_bytes())
}

/// The words of a line of 65,535 pixels or a few less, OFF and ON by turns.
fn by_turns(pixels: u16) -> Vec<u16> {
    let mut words = vec![0x5555; 4_096];
    words[4_095] = 0x5555 & !(0xFFFF >> (pixels - 65_520));
    words
}

pub fn moved_edges() -> Vec<MovedEdge> {
    [moved_sheets(), unmoved_sheets(), wide_moves()].concat()
}

fn moved_sheets() -> Vec<MovedEdge> {
    let packed = [0x59A7, 3, 1, 0, 0x1800, 0x5900, 3, 2, 0, 0xFF00];
    let runs = [0x59A7, 5, 1, 0, 3, 2, 3, 0x5900, 5, 2, 0, 0, 8, 0];
    let (packed, runs) = (with_words(1, 8, 2, WITH, &packed), with_words(9, 8, 2, WITH, &runs));
    // All that may stand in a header, and a block more of it.
    let dressed = |file: &[u8]| {
        let mut longer = file[..1_024].to_vec();
        longer.extend([0xC5; 512]);
        longer.extend(&file[1_024..]);
        for (at, bytes) in [
            (2, &[0xFE, 0x02][..]),
            (6, &[7, 8]),
            (30, b"a plan of 1989"),
            (56, &[0xFF; 128]),
            (192, &[0x38, 0xFF, 5]),
            (520, &[1, 2, 3, 4, 5, 6, 7, 8, 9, 10, 11, 12, 1, 0]),
            (536, &[0xFF; 4]),
            (548, &[0xFF; 300]),
        ] {
            put(&mut longer, at, bytes);
        }
        longer
    };
    let bare = |kind, words: &[u16]| with_words(kind, 8, 2, WITHOUT, words);
    vec![
        moved("type 1 to 9", packed.clone(), runs.clone()),
        moved("type 9 to 1", runs.clone(), packed.clone()),
        moved("type 1 to 9, a header full of things", dressed(&packed), dressed(&runs)),
        moved("type 9 to 1, a header full of things", dressed(&runs), dressed(&packed)),
        moved("no headers, 1 to 9", bare(1, &[0x1800, 0xFF00]), bare(9, &[3, 2, 3, 0, 8, 0])),
        moved("no headers, 9 to 1", bare(9, &[3, 2, 3, 0, 8, 0]), bare(1, &[0x1800, 0xFF00])),
        moved("zero runs go", bare(9, &[3, 0, 0, 2, 3, 0, 8, 0]), bare(1, &[0x1800, 0xFF00])),
        moved(
            "zero runs go, with headers",
            with_words(9, 8, 1, WITH, &[0x5900, 9, 1, 0, 3, 0, 0, 2, 0, 0, 3]),
            with_words(1, 8, 1, WITH, &[0x5900, 3, 1, 0, 0x1800]),
        ),
        moved(
            "words after the last line",
            bare(1, &[0x1800, 0xFF00, 9, 9]),
            bare(9, &[3, 2, 3, 0, 8, 0]),
        ),
        moved(
            "bytes after the last line",
            [packed.clone(), vec![0, 0x59, 3]].concat(),
            runs.clone(),
        ),
        moved("runs after the last line", bare(9, &[8, 8, 0, 0, 8]), bare(1, &[0, 0])),
        moved(
            "a run goes on in the next word",
            with_words(1, 17, 1, WITHOUT, &[0x00FF, 0x8000]),
            with_words(9, 17, 1, WITHOUT, &[8, 9, 0]),
        ),
        MovedEdge { room: runs.len(), ..moved("just enough room", packed.clone(), runs.clone()) },
        MovedEdge { room: runs.len() - 1, ..unmoved("a byte too few", 28, packed.clone()) },
        MovedEdge { room: packed.len() - 1, ..unmoved("a byte too few, 9 to 1", 28, runs) },
        MovedEdge { room: 0, ..unmoved("no room", 28, packed) },
    ]
}

fn unmoved_sheets() -> Vec<MovedEdge> {
    let good = starting(1, 8, &[(0, &[0x1800]), (0, &[0xFF00])]);
    let table = changed(with_words(2, 8, 1, WITHOUT, &[0, 0, 0, 0]), 532, &[2, 0, 0, 0, 2]);
    vec![
        unmoved("an empty file", 11, Vec::new()),
        unmoved("type 4", 16, changed(good.clone(), 4, &[4])),
        unmoved("type 257", 16, changed(good.clone(), 5, &[1])),
        unmoved("SCN 2", 18, changed(good.clone(), 195, &[2])),
        unmoved("a slot twice comes before the type", 22, table),
        unmoved("type 2", 30, with_words(2, 2, 1, WITHOUT, &[0x0605])),
        unmoved("type 3", 30, with_words(3, 2, 1, WITHOUT, &[5, 6])),
        unmoved("type 10", 30, with_words(10, 8, 1, WITHOUT, &[1, 8])),
        unmoved("the type comes before lines", 30, starting(10, 8, &[(0, &[1, 7]), (8, &[])])),
        unmoved("a spare bit", 41, starting(1, 8, &[(0, &[0x1800]), (0, &[0xFF01])])),
        unmoved("a spare bit, no headers", 41, with_words(1, 8, 2, WITHOUT, &[0x1801, 0])),
        unmoved("a line missing", 41, with_words(1, 8, 2, WITHOUT, &[0x1800])),
        unmoved("a run short", 41, starting(9, 8, &[(0, &[3, 2, 3]), (0, &[3, 2, 2])])),
        unmoved("nothing after the header", 41, head(9, 8, 1, WITH)),
        unmoved("a wrong number", 41, changed(good, 1_028, &[3])),
        unmoved("an offset past P", 41, starting(1, 8, &[(9, &[])])),
        unmoved("an offset", 42, starting(1, 8, &[(3, &[0xD800])])),
        unmoved("an offset in the last line", 42, starting(9, 8, &[(0, &[8]), (3, &[1, 3, 1])])),
        unmoved("an offset of P", 42, starting(1, 8, &[(0, &[0]), (8, &[])])),
        unmoved("an offset, then a bad line", 41, starting(1, 8, &[(3, &[0xD800]), (0, &[1])])),
        unmoved("a bad line, then an offset", 41, starting(9, 8, &[(0, &[7]), (3, &[5])])),
        MovedEdge { room: 0, ..unmoved("an offset, no room", 42, starting(1, 8, &[(8, &[])])) },
        MovedEdge { room: 0, ..unmoved("a bad line, no room", 41, starting(1, 8, &[(0, &[1])])) },
        MovedEdge { room: 0, ..unmoved("type 3, no room", 30, with_words(3, 1, 1, WITHOUT, &[5])) },
    ]
}

/// Runs that are cut, and the longest bodies.
fn wide_moves() -> Vec<MovedEdge> {
    let line = |body: &[u16]| [&[0x5900, body.len() as u16 + 2, 1, 0], body].concat();
    let ones = |pixels: u16| wide(1, pixels, 1, WITHOUT, &vec![0xFFFF; usize::from(pixels) / 16]);
    let cut_runs = [0, 32_767, 0, 1, 0];
    let single = |pixels: u16| vec![1; pixels.into()];
    let [packed, longer] = [65_533, 65_534].map(|n| wide(1, n, 1, WITH, &line(&by_turns(n))));
    let runs = wide(9, 65_533, 1, WITH, &line(&single(65_533)));
    let two = [line(&by_turns(65_534)), vec![0x5900, 2, 2, 65_534]].concat();
    vec![
        moved("11: ON, moved", ones(32_768), wide(9, 32_768, 1, WITHOUT, &cut_runs)),
        moved("11: ON, moved back", wide(9, 32_768, 1, WITHOUT, &cut_runs), ones(32_768)),
        moved(
            "11: cut otherwise, moved back",
            wide(9, 32_768, 1, WITHOUT, &[0, 1, 0, 32_767, 0]),
            ones(32_768),
        ),
        moved("65,533 words", packed.clone(), runs.clone()),
        moved("65,533 words, back", runs, packed),
        unmoved("65,535 words", 27, longer.clone()),
        MovedEdge { room: 0, ..unmoved("65,535 words, no room", 27, longer) },
        unmoved("65,535 words, then an offset", 42, wide(1, 65_534, 2, WITH, &two)),
        moved(
            "65,535 words, no headers",
            wide(1, 65_535, 1, WITHOUT, &by_turns(65_535)),
            wide(9, 65_535, 1, WITHOUT, &single(65_535)),
        ),
    ]
}
