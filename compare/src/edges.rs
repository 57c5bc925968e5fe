//! Messages and rows at the edges: those by hand come with the number and the place the documents give them, and generated
//! messages follow.
mod changes;
mod radio;
mod restore;
mod season;

pub use changes::{row_pairs_by_hand, Pair};
pub use radio::{radio_lists_by_hand, radio_records_by_hand, Listed, Received};
pub use restore::{replaced_by_hand, Replaced};
pub use season::{nights_by_hand, Night};

use crate::generate::{self, Rng};

pub const EXAMPLE: &str = "GG XQAAYNYX XQBBYOYX
120645 XQAAYNYX
SWXQ0007 XQAA 01120640
(SNOWTAM 0007
XQAA
01120610 07L 3/5/5 75/25/NR 12/NR/NR DRY SNOW/FROST/DRY
01120640 07R  6/6/6 NR/NR/NR NR/NR/NR DRY/DRY/DRY

DRIFTING SNOW.TWY A W SNOWBANK.
RWY 07R SWEPT 40M.)
";

const EXAMPLE_WRITTEN: &str = "<H>01120610 07L 3/5/5 75/25/NR 12/NR/NR DRY SNOW/FROST/DRY
01120640 07R 6/6/6 DRY/DRY/DRY

DRIFTING SNOW. TWY A W SNOWBANK.
RWY 07R SWEPT 40M.)
";

/// A text by hand and what it is answered: 0, or the refusal number, and the place in the text.
pub struct Example {
    pub text: Vec<u8>,
    pub number: u8,
    pub place: usize,
}

/// What stands between angle brackets in the texts below; no text has such a bracket itself.
const SHORTHAND: [(&str, &str); 17] = [
    ("<P>", "<P1>\n<L2>\n<L3>\n<L4>\n<L5>\n"),
    ("<P1>", "GG XQAAYNYX"),
    (
        "<YEAR>",
        "03010000 01 <S>\n12312359 02 <S>\n02290000 03 <S>\n01010000 04 <S>\n02282359 05 <S>\n12312350 06 <S>\n\
         01010010 07 <S>\n",
    ),
    ("<D>", "<T> 07 "),
    ("<LONG>", "5/5/5 25/NR/NR NR/NR/NR "),
    ("<H>", "<L1>\n<L2>\n<L3>\n<L4>\n<L5>\n"),
    ("<8>", "<7>01120640 08 6/6/6 NR/NR/NR"),
    ("<7>", "<T> 01 <S>\n<T> 02 <S>\n<T> 03 <S>\n<T> 04 <S>\n<T> 05 <S>\n<T> 06 <S>\n<T> 07 <S>\n"),
    ("<R>", "<T> 07R <S>"),
    ("<T>", "01120640"),
    ("<S>", "6/6/6 DRY/DRY/DRY"),
    ("<J>", "DRIFTING SNOW."),
    ("<L1>", "GG XQAAYNYX XQBBYOYX"),
    ("<L2>", "120645 XQAAYNYX"),
    ("<L3>", "SWXQ0007 XQAA 01120640"),
    ("<L4>", "(SNOWTAM 0007"),
    ("<L5>", "XQAA"),
];

/// Whole messages, with the number they get; 0 is accepted. A `^` marks the place of a refusal and is none of the message.
/// Messages of equal meaning stand next to each other.
const MESSAGES: &[(&str, u8)] = &[
    // Pairs at each edge.
    ("", 2),
    ("<L1>\n<L2>\nSWXQ0007 XQAA 02290000\n<L4>\n<L5>\n02290000 07 <S>)\n", 0),
    ("<L1>\n<L2>\n^SWXQ0007 XQAA 02300000\n<L4>\n<L5>\n02300000 07 <S>)\n", 3),
    ("<L1>\n<L2>\nSWXQ0007 XQAA ^01120640\n<L4>\n<L5>\n02290000 07 <S>)\n", 12),
    ("<H>^02300000 07 <S>)\n", 5),
    // 1: a line, and a CR that ends none.
    ("<H><R>)\n", 0),
    ("<H><R>)", 0),
    ("<H><R>)\r\n", 0),
    ("<L1>\r\n<L2>\n<L3>\r\n<L4>\n<L5>\r\n<R>)\n", 0),
    ("<L1>\r\n<L2>\r\n<L3>\r\n<L4>\r\n<L5>\r\n<R>)", 0),
    ("<H><T> 07R 6/6/6 ^DRY/DRY/DRY)\r\r\n", 26),
    ("<H><T> 07R 6/6/6 ^DRY/DRY/DRY)\r", 26),
    ("<H><T> 07R 6/6/6 ^DRY/DRY/DRY\r)\n", 26),
    ("<H>^\r<R>)\n", 5),
    ("<H><R>\n\n^<J>)\r", 8),
    ("<H><R>\n\n^<J>)\r\r\n", 8),
    ("<H><R>\n\n\nA.)\r^", 4),
    ("<H><R>\n\n\nA.)\r\r\n^", 4),
    ("^<L1>\r\r\n<L2>\n<L3>\n<L4>\n<L5>\n<R>)\n", 2),
    ("^<L1>\r<L2>\n<L3>\n<L4>\n<L5>\n<R>)\n", 2),
    ("<L1>\n<L2>\n^\r<L3>\n<L4>\n<L5>\n<R>)\n", 3),
    // 2: where lines are missing.
    ("<L1>^", 2),
    ("<L1>\n^", 2),
    ("<L1>\n<L2>^", 3),
    ("<L1>\n<L2>\n^", 3),
    ("<L1>\n<L2>\n<L3>^", 4),
    ("<L1>\n<L2>\n<L3>\n^", 4),
    ("<L1>\n<L2>\n<L3>\n<L4>^", 4),
    ("<L1>\n<L2>\n<L3>\n<L4>\n<L5>^", 4),
    ("^<L1>\r", 2),
    ("<L1>\n^<L2>\r", 2),
    ("<L1>\n<L2>\n^<L3>\r", 3),
    ("^\n", 2),
    ("<L1>\n^\n<L3>\n", 2),
    ("<L1>\n<L2>\n^\n<L4>\n", 3),
    ("<L1>\n<L2>\n<L3>\n^\n<L5>\n<R>)\n", 4),
    ("<L1>\n<L2>\n<L3>\n<L4>\n^\n<R>)\n", 4),
    // 3: `)` at the end of lines 1 to 5.
    ("^<L1>)\n<L2>\n<L3>\n<L4>\n<L5>\n<R>)\n", 2),
    ("<L1>\n^<L2>)\n<L3>\n<L4>\n<L5>\n<R>)\n", 2),
    ("<L1>\n<L2>\n^<L3>)\n<L4>\n<L5>\n<R>)\n", 3),
    ("<L1>\n<L2>\n<L3>\n^<L4>)\n<L5>\n<R>)\n", 4),
    ("<L1>\n<L2>\n<L3>\n<L4>\n^<L5>)\n<R>)\n", 4),
    ("<L1>\n<L2>\n<L3>\n<L4>\n^<L5>)", 4),
    // 4: `)` alone, `))`, a space before it.
    ("<H>^)\n", 5),
    ("<H>^)", 5),
    ("<H><R>\n^)\n", 5),
    ("<H><8>\n^)\n", 6),
    ("<H><R>\n\n^)\n", 8),
    ("<H><R>\n\n\n^)\n", 9),
    ("<H><R>\n\n<J>\n^)\n", 9),
    ("<H><T> 07R 6/6/6 ^DRY/DRY/DRY))\n", 26),
    ("<H><R>\n\n^<J>))\n", 8),
    ("<H><R>\n\n\n^A.))\n", 9),
    ("<H><T> 07R 6/6/6 ^DRY/DRY/DRY )\n", 26),
    ("<H><R>\n\n^<J> )\n", 8),
    ("<H><R>\n\n\n^A. )\n", 9),
    ("<H><T> 07R 6/6/6 ^DRY/DRY/DRY) \n", 26),
    ("<H><R>\n\n^<J>) \n", 8),
    ("<H><R>\n\n\nA.) \n^", 4),
    // 5: what follows the end, before the numbers that come at it.
    ("<H><R>)\n^\n", 4),
    ("<H><R>)\n^\r\n", 4),
    ("<H><R>)\n^ ", 4),
    ("<H><R>)\n^)", 4),
    ("<H><R>)\n^<T> 07L <S>)\n", 4),
    ("<H><R>\n\n<J>)\n^\n", 4),
    ("<H><R>\n\n<J>)\n^A.)\n", 4),
    ("<H><R>\n\n\nA.)\n^A.)\n", 4),
    ("<L1>\n<L2>\n<L3>\n(SNOWTAM 0008\n<L5>\n<R>)\n^\n", 4),
    ("<L1>\n<L2>\n<L3>\n(SNOWTAM 0008\n<L5>\n01120641 07 ^9/6/6 DRY/DRY/DRY)\n\n", 25),
    ("<L1>\n<L2>\n<L3>\n(SNOWTAM ^0008\nXQAB\n01120641 07 <S>)\n", 10),
    ("<L1>\n<L2>\n<L3>\n<L4>\n^XQAB\n01120641 07 <S>)\n", 11),
    ("<L1>\n<L2>\nSWXQ0007 XQAA ^01120640\n<L4>\n<L5>\n01120641 07 <S>)\n", 12),
    ("<L1>\n<L2>\nSWXQ0007 XQAA ^01120640\n<L4>\n<L5>\n01120639 07 <S>)\n", 12),
    ("<L1>\n<L2>\n<L3>\n<L4>\nXQAB\n01120641 07 <S>)\n^)", 4),
    // 6: lines that look empty.
    ("<H>^ \n", 5),
    ("<H><R>\n^ \n<J>)\n", 5),
    ("<H><R>\n^\r\r\n<J>)\n", 5),
    ("<H><8>\n^ \n<J>)\n", 6),
    ("<H><8>\n^\r", 6),
    ("<H><R>\n\n^ \nA.)\n", 8),
    ("<H><R>\n\n^\r", 8),
    ("<H><R>\n\n\n \n^", 4),
    ("<H><R>\n\n\n\r^", 4),
    ("<H><R>\n\n\nA.)\n", 0),
    ("<H><R>\r\n\r\n\r\nA.)\r\n", 0),
    // 7: the empty line between, and what may stand after eight rows.
    ("<H><R>\n^<J>)\n", 5),
    ("<H><8>\n^<J>)\n", 6),
    ("<H><8>)\n", 0),
    ("<H><8>\n\n<J>)\n", 0),
    ("<H><8>\r\n\r\n<J>)", 0),
    ("<H><8>\n^<T> 09 <S>)\n", 6),
    ("<H><8>\n^<T> 08 <S>)\n", 6),
    ("<H><8>\n^<T> 09 9/9/9)\n", 6),
    ("<H><8>\n^", 4),
    ("<H><8>^", 4),
    ("<H><7><T> ^07 <S>)\n", 7),
    ("<H><7><T> 07 6/6/6 ^DRY/DRY/DRY 00)\n", 26),
    ("<H><7><T> 07^\n", 25),
    ("<H><R>\n<T> ^07R <S>)\n", 7),
    ("<H><R>\n<T> ^07R <S>\n", 7),
    ("<H><R>\n<T> 07L <S>\n<T> 07C <S>\n<T> 07 <S>)\n", 0),
    ("<H><R>\n<T> 07L <S>\n<T> 07 <S>\n<T> 07C <S>)\n", 0),
    // 8: where the message stops early.
    ("<H>^", 4),
    ("<H><R>\n^", 4),
    ("<H><R>^", 4),
    ("<H><R>\n\n^", 4),
    ("<H><R>\n\n\n^", 4),
    ("<H><R>\n\n<J>^", 4),
    ("<H><R>\n\n<J>\n^", 4),
    ("<H><R>\n\n<J>\n\n^", 4),
    ("<H>^\n<R>)\n", 4),
    ("<H>^\n", 4),
    ("<H><R>\n\n\n\n^", 4),
    ("<H><R>\n\n\n<J>)\n", 0),
    ("<H><R>\n\n<J>)\n", 0),
    ("<H><R>\n\n<J>)", 0),
    ("<H><R>\n\n\n\nA.)\n^", 4),
    // 9: a last line that lacks `)`.
    ("<H><T> 07R 6/6/6 ^DRY/DRY/DRY 00\n", 26),
    ("<H><T> 07R 6/6/6 ^DRY/DRY/DRY 00", 26),
    ("<H><R>\n\n^SNOW.", 8),
    ("<H><R>\n\n\nbad^", 4),
    ("<H><R>\n\n\nA.^", 4),
    ("<H><R>\n\n<J>\nA^", 4),
    ("<H><R>\n\n\n^A)B.)\n", 9),
    ("<H><R>\n\n\n^A\rB.)\n", 9),
    ("<H><R>\n\n\n^A.\r)\n", 9),
    // Lines 1 and 2.
    ("DD XQAAYNYX\n<L2>\n<L3>\n<L4>\n<L5>\n<R>)\n", 0),
    ("DD XQAAYNYX\n312359 XQAAYNYX\n<L3>\n<L4>\n<L5>\n<R>)\n", 0),
    ("^FF XQAAYNYX\n<L2>\n<L3>\n<L4>\n<L5>\n<R>)\n", 2),
    ("^GG\n<L2>\n<L3>\n<L4>\n<L5>\n<R>)\n", 2),
    ("^GG XQAAYNY\n<L2>\n<L3>\n<L4>\n<L5>\n<R>)\n", 2),
    ("^GG XQAAYNYXX\n<L2>\n<L3>\n<L4>\n<L5>\n<R>)\n", 2),
    ("^GG XQAAYNY1\n<L2>\n<L3>\n<L4>\n<L5>\n<R>)\n", 2),
    ("^GG XQAAYNYx\n<L2>\n<L3>\n<L4>\n<L5>\n<R>)\n", 2),
    ("^GGXQAAYNYX\n<L2>\n<L3>\n<L4>\n<L5>\n<R>)\n", 2),
    ("^ <L1>\n<L2>\n<L3>\n<L4>\n<L5>\n<R>)\n", 2),
    ("^<L1> \n<L2>\n<L3>\n<L4>\n<L5>\n<R>)\n", 2),
    ("^GG\tXQAAYNYX\n<L2>\n<L3>\n<L4>\n<L5>\n<R>)\n", 2),
    ("GG XQAAYNYX XQAAYNYX\n<L2>\n<L3>\n<L4>\n<L5>\n<R>)\n", 0),
    ("GG  XQAAYNYX   XQAAYNYX\n120645    XQAAYNYX\n<L3>\n<L4>\n<L5>\n<R>)\n", 0),
    ("<L1>\n^000645 XQAAYNYX\n<L3>\n<L4>\n<L5>\n<R>)\n", 2),
    ("<L1>\n^320645 XQAAYNYX\n<L3>\n<L4>\n<L5>\n<R>)\n", 2),
    ("<L1>\n^122445 XQAAYNYX\n<L3>\n<L4>\n<L5>\n<R>)\n", 2),
    ("<L1>\n^120660 XQAAYNYX\n<L3>\n<L4>\n<L5>\n<R>)\n", 2),
    ("<L1>\n^12064 XQAAYNYX\n<L3>\n<L4>\n<L5>\n<R>)\n", 2),
    ("<L1>\n010000 XQAAYNYX\n<L3>\n<L4>\n<L5>\n<R>)\n", 0),
    ("<L1>\n^<L2> XQAAYNYX\n<L3>\n<L4>\n<L5>\n<R>)\n", 2),
    // 11 to 13: serials, groups and the heading's time.
    ("<L1>\n<L2>\n^SWXQ0000 XQAA 01120640\n(SNOWTAM 0000\n<L5>\n<R>)\n", 3),
    ("<L1>\n<L2>\n<L3>\n^(SNOWTAM 0000\n<L5>\n<R>)\n", 4),
    ("<L1>\n<L2>\n<L3>\n^(SNOWTAM 7\n<L5>\n<R>)\n", 4),
    ("<L1>\n<L2>\n<L3>\n(SNOWTAM ^0008\n<L5>\n<R>)\n", 10),
    ("<L1>\n<L2>\nSWXQ0001 XQAA 01120640\n(SNOWTAM 0001\n<L5>\n<R>)\n", 0),
    ("<L1>\n<L2>\nSWXQ9999 XQAA 01120640\n(SNOWTAM 9999\n<L5>\n<R>)\n", 0),
    ("<L1>\n<L2>\n^SW XQ0007 XQAA 01120640\n<L4>\n<L5>\n<R>)\n", 3),
    ("<L1>\n<L2>\n^SWXQ 0007 XQAA 01120640\n<L4>\n<L5>\n<R>)\n", 3),
    ("<L1>\n<L2>\nSWXQ0007  XQAA   01120640\n(SNOWTAM    0007\n<L5>\n<R>)\n", 0),
    ("<H><T>  07R   6/6/6    DRY/DRY/DRY)\n", 0),
    ("<L1>\n<L2>\n<L3>\n^( SNOWTAM 0007\n<L5>\n<R>)\n", 4),
    ("<L1>\n<L2>\n<L3>\n^(SNOWTAM0007\n<L5>\n<R>)\n", 4),
    ("<L1>\n<L2>\n<L3>\n^SNOWTAM 0007\n<L5>\n<R>)\n", 4),
    ("<L1>\n<L2>\n<L3>\n^<L4> \n<L5>\n<R>)\n", 4),
    ("<L1>\n<L2>\n<L3>\n<L4>\n^<L5> \n<R>)\n", 4),
    ("<L1>\n<L2>\n<L3>\n<L4>\n^XQA\n<R>)\n", 4),
    ("<L1>\n<L2>\n<L3>\n<L4>\n^XQAAA\n<R>)\n", 4),
    ("<L1>\n<L2>\nSWZZ0007 XQAA 01120640\n<L4>\n<L5>\n<R>)\n", 0),
    ("<L1>\n<L2>\n^SWX70007 XQAA 01120640\n<L4>\n<L5>\n<R>)\n", 3),
    ("<L1>\n<L2>\n^<L3> 0007\n<L4>\n<L5>\n<R>)\n", 3),
    ("<L1>\n<L2>\n^SWXQ0007 XQA 01120640\n<L4>\n<L5>\n<R>)\n", 3),
    ("<L1>\n<L2>\n^SWXQ0007 XQAA 01320640\n<L4>\n<L5>\n<R>)\n", 3),
    ("<L1>\n<L2>\nSWXQ0007 XQAA ^01120641\n<L4>\n<L5>\n<R>)\n", 12),
    ("<L1>\n<L2>\nSWXQ0007 XQAA 01310000\n<L4>\n<L5>\n01310000 01 <S>\n12010000 02 <S>)\n", 0),
    ("<L1>\n<L2>\nSWXQ0007 XQAA ^12010000\n<L4>\n<L5>\n01310000 01 <S>\n12010000 02 <S>)\n", 12),
];

/// Rows as the one row of a notice; the number is what the notice gets, and a `^` marks its place.
const ROWS: &[(&str, u8)] = &[
    // The pairs of depths, and the slips.
    ("<T> 07 2/2/2 50/50/50 ^099/NR/NR SLUSH/SLUSH/SLUSH", 26),
    ("<T> 07 2/2/5 50/50/50 99/100/NR SLUSH/SLUSH/SLUSH", 0),
    ("<T> 07 2/2/5 50/50/50 99/100/NR  SLUSH/SLUSH/SLUSH", 0),
    ("<T> 07 2/2/2 50/50/50 999/NR/NR SLUSH/SLUSH/SLUSH", 0),
    ("<T> 07 2/2/2 50/50/50 ^1000/NR/NR SLUSH/SLUSH/SLUSH", 26),
    ("<T> 07 5/2/5 50/50/50 03/04/NR SLUSH/SLUSH/SLUSH", 0),
    ("<T> 07 5/2/5 50/50/50 ^02/04/NR SLUSH/SLUSH/SLUSH", 26),
    ("<T> 07 5/2/5 50/50/50 ^00/04/NR SLUSH/SLUSH/SLUSH", 26),
    ("<T> 07 2/2/2 50/50/50 ^03/04/NR STANDING WATER/STANDING WATER/STANDING WATER", 26),
    ("<T> 07 2/2/2 50/50/50 04/05/NR STANDING WATER/STANDING WATER/STANDING WATER", 0),
    ("<T> 07 6/6/0 NR/NR/100 NR/NR/NR DRY/DRY/DRY SNOW ON TOP OF ICE", 0),
    ("<T> 07 6/6/0 NR/NR/100 NR/NR/NR DRY/DRY/DRY  SNOW ON   TOP OF    ICE", 0),
    ("<T> 07 6/6/6 DRY/DRY/DRY SNOW ON TOP OF ICE", 0),
    ("<T> 07 6/6/5 ^DRY/DRY/DRY SNOW ON TOP OF ICE", 26),
    // Table 1: what agrees and what does not.
    ("<T> 07 5/2/6 NR/NR/NR NR/NR/NR STANDING WATER/STANDING WATER/NR", 0),
    ("<T> 07 5/3/4 25/50/75 NR/NR/NR WET/WET/WET", 0),
    ("<T> 07 4/3/5 25/50/75 NR/NR/NR COMPACTED SNOW/COMPACTED SNOW/COMPACTED SNOW", 0),
    ("<T> 07 5/3/2 NR/NR/NR 03/04/04 DRY SNOW/WET SNOW/SLUSH", 0),
    ("<T> 07 3/5/5 NR/NR/NR 03/04/04 DRY SNOW/WET SNOW/SLUSH", 0),
    // 14: short rows.
    ("<T> 07 6/6/6 NR/NR/NR", 0),
    ("<T> 07 6/6/6 NR/NR/NR NR/NR/NR NR/NR/NR", 0),
    ("<T> 07 6/6/6 FROST/ICE/WET", 0),
    ("<T> 07 6/6/6 NR/NR/NR NR/NR/NR FROST/ICE/WET", 0),
    ("<T> 07 0/1/2 DRY/DRY/DRY", 0),
    ("<T> 07 0/1/2 NR/NR/NR NR/NR/NR DRY/DRY/DRY", 0),
    ("<T> 07 5/5/5 ^NR/NR/NR", 26),
    ("<T> 07 5/5/5 NR/NR/NR NR/NR/NR NR/NR/NR", 0),
    ("<T> 07 6/6/5 ^DRY/DRY/NR", 26),
    ("<T> 07 6/6/6 NR/NR/NR NR/NR/NR^", 27),
    ("<T> 07 6/6/6 NR/NR/NR NR/NR/NR ^30", 27),
    ("<T> 07 6/6/6 25/NR/NR ^FROST/ICE/WET", 26),
    ("<T> 07 6/6/6^", 26),
    ("<T> 07 6/6/6 ^30", 26),
    // 15: no number is required.
    ("<T> 07 5/5/5 NR/NR/NR 03/NR/NR SLUSH/WET/WET", 0),
    ("<T> 07 5/5/5 100/NR/NR NR/NR/NR WET/NR/DRY", 0),
    ("<T> 07 5/5/5 ^NR/100/NR NR/NR/NR WET/NR/DRY", 26),
    ("<T> 07 5/5/5 ^NR/NR/100 NR/NR/NR WET/NR/DRY", 26),
    ("<T> 07 5/5/5 ^30/NR/NR NR/NR/NR WET/NR/DRY", 26),
    ("<T> 07 5/5/5 ^025/NR/NR NR/NR/NR WET/NR/DRY", 26),
    ("<T> 07 5/5/5 50/50/50 ^04/NR/NR FROST/FROST/FROST", 26),
    ("<T> 07 5/5/5 NR/NR/NR ^04/NR/NR NR/FROST/FROST", 26),
    // 16: widths and runways.
    ("<T> 07 6/6/6 NR/NR/NR 30", 0),
    ("<T> 07 6/6/6 NR/NR/NR NR/NR/NR NR/NR/NR 30", 0),
    ("<T> 07 <S> 01", 0),
    ("<T> 07 <S> 99", 0),
    ("<T> 07 6/6/6 ^DRY/DRY/DRY 00", 26),
    ("<T> 07 6/6/6 ^DRY/DRY/DRY 5", 26),
    ("<T> 07 6/6/6 ^DRY/DRY/DRY 100", 26),
    ("<T> 07 6/6/6 ^DRY/DRY/DRY NR", 26),
    ("<T> 07 6/6/6 ^DRY/DRY/DRY 30 30", 26),
    ("<T> 01 <S>", 0),
    ("<T> 18C <S>", 0),
    ("<T> ^00 <S>", 24),
    ("<T> ^19 <S>", 24),
    ("<T> ^7 <S>", 24),
    ("<T> ^07LR <S>", 24),
    ("<T> 07 ^L <S>", 25),
    // 17: spaces, tabs and slashes.
    ("<T> 07 3/3/3 50/50/50 04/04/04 DRY SNOW/DRY SNOW/DRY SNOW", 0),
    ("<T> 07 3/3/3 50/50/50 04/04/04 DRY  SNOW/DRY   SNOW/DRY    SNOW", 0),
    ("<T> 07 ^6/ 6/6 DRY/DRY/DRY", 25),
    ("<T> 07 ^6 /6/6 DRY/DRY/DRY", 25),
    ("<T> 07 6/6/6 ^DRY/ DRY/DRY", 26),
    ("<T> 07 ^6/6/6\tDRY/DRY/DRY", 25),
    ("<T> 07 6/6/6 ^DRY/DRY/DRYSNOW", 26),
    ("<T> 07 ^6/6/6/DRY/DRY/DRY", 25),
    ("<T> 07 ^7/6/6 DRY/DRY/DRY", 25),
    ("<T> 07 ^NR/6/6 DRY/DRY/DRY", 25),
    ("<T> 07 ^6/6 DRY/DRY/DRY", 25),
    ("<T> 07 6/6/6 ^DRY/DRY", 26),
    ("<T> 07 6/6/6 ^DRY/DRY/DRY/DRY", 26),
    ("^ <T> 07 <S>", 5),
    ("^<T>07 <S>", 5),
    ("^04310000 07 <S>", 5),
    ("^01012400 07 <S>", 5),
    ("^01010060 07 <S>", 5),
    ("^00010000 07 <S>", 5),
    ("^13010000 07 <S>", 5),
];

/// Awareness lines of a notice with one row and no plain language.
const AWARENESS: &[(&str, u8)] = &[
    // 18: names that look like keywords.
    ("TWY TWY POOR.", 0),
    ("TWY ALL POOR.", 0),
    ("TWY A TWY B POOR.", 0),
    ("TWY  A   TWY B  POOR.", 0),
    ("APRON POOR POOR.", 0),
    ("APRON ALL POOR.", 0),
    ("ALL APRON POOR.", 0),
    ("TWY POOR.", 8),
    ("APRON POOR.", 8),
    ("ALL TWY SNOWBANK.", 8),
    ("APRON ALL POOR.ALL APRON POOR.", 8),
    ("ALL APRON POOR.APRON ALL POOR.", 8),
    ("ALL TWY POOR.", 0),
    ("ALL TWY POOR.TWY A POOR.", 8),
    ("TWY SNOWBANK.", 8),
    ("TWY A1 B22 C SNOWBANK.", 0),
    ("TWY 1A SNOWBANK.", 8),
    ("TWY ABCD SNOWBANK.", 8),
    ("TWY A B C D E F G H POOR.", 0),
    ("TWY A B C D E F G H I POOR.", 8),
    ("TWY A B A POOR.", 8),
    ("APRON ABCDEFGHIJKLMNOP POOR.", 0),
    ("APRON ABCDEFGHIJKLMNOPQ POOR.", 8),
    ("APRON SOUTH DEICING POOR.", 8),
    // 19: order and repeats.
    ("<J> RWY 07 LOOSE SAND.", 0),
    ("<J>RWY 07 LOOSE SAND.", 0),
    ("<J>     RWY 07  LOOSE SAND.", 0),
    ("RWY 07 LOOSE SAND.<J>", 8),
    ("<J><J>", 8),
    ("RWY 07 REDUCED TO 100.RWY 25 REDUCED TO 100.RWY 07L REDUCED TO 100.", 0),
    ("RWY 25 REDUCED TO 100.RWY 07 REDUCED TO 100.RWY 07L REDUCED TO 100.", 0),
    ("RWY 07 REDUCED TO 100.RWY 07 REDUCED TO 200.", 8),
    ("RWY 07 SNOWBANK L05 FM CL.RWY 07 SNOWBANK R05 FM CL.", 8),
    ("RWY 07 SNOWBANK L05 FM CL.RWY 07R SNOWBANK LR05 FM CL.", 0),
    ("APRON 1 POOR.APRON 01 POOR.", 0),
    ("APRON 1 POOR.APRON 1 POOR.", 8),
    ("TWY A SNOWBANK.TWY A POOR.", 0),
    ("TWY A SNOWBANK.TWY B SNOWBANK.", 8),
    ("RWY 07 ADJ SNOWBANK.RWY 07 ADJ SNOWBANK.", 8),
    ("RWY 07 CHEMICALLY TREATED.RWY 07 CHEMICALLY TREATED.", 8),
    // The bounds of the items.
    ("RWY 07 REDUCED TO 99.", 8),
    ("RWY 07 REDUCED TO 099.", 8),
    ("RWY 07 REDUCED TO 9999.", 0),
    ("RWY 07 REDUCED TO 10000.", 8),
    ("RWY 07 REDUCED TO 0100.", 8),
    ("RWY 36R REDUCED TO 1000.", 0),
    ("RWY 37 REDUCED TO 1000.", 8),
    ("RWY 19 LOOSE SAND.", 8),
    ("RWY 19 ADJ SNOWBANK.", 8),
    ("RWY 07 SNOWBANK LR99 FM CL.", 0),
    ("RWY 07 SNOWBANK LR00 FM CL.", 8),
    ("RWY 07 SNOWBANK L100 FM CL.", 8),
    ("RWY 07 SNOWBANK 05 FM CL.", 8),
    ("RWY 07 SNOWBANK L 05 FM CL.", 8),
    ("RWY 07 SNOWBANK RL05 FM CL.", 8),
    ("RWY 07 SNOWBANKS L05 FM CL.", 8),
    // 17 and 20: spaces and full stops.
    ("DRIFTING  SNOW.", 0),
    ("<J>", 0),
    ("DRIFTING\tSNOW.", 8),
    ("DRIFTING SNOW .", 8),
    ("<J> ", 8),
    (" <J>", 8),
    ("<J>.", 8),
    (".", 8),
    ("DRIFTING SNOW", 8),
    ("<J>\tTWY A POOR.", 8),
    ("<J>\r", 8),
];

/// Plain-language lines of a notice with one row and no items.
const PLAIN: &[(&str, u8)] = &[
    // 21
    ("..", 0),
    ("A.", 0),
    ("A .", 0),
    ("A  .", 0),
    (".", 9),
    (" .", 9),
    ("A", 9),
    ("A. ", 9),
    (" A.", 9),
    ("a.", 9),
    ("A(.", 9),
    ("A\t.", 9),
    ("0 9 . , / - + : Z.", 0),
    ("A;.", 9),
];

/// Messages of request 2. The heading <P> has 70 bytes: line 3 stands at 28, its time at 42, line 4 at 51, its serial at 60
/// and line 5 at 65. The row <R> has 30.
const PLACED_MESSAGES: &[(&str, u8, usize)] = &[
    // Lines that are missing.
    ("", 2, 0),
    ("<P1>", 2, 11),
    ("<P1>\n<L2>", 3, 27),
    ("<P>", 4, 70),
    ("<P><R>", 4, 100),
    ("<P><R>\n", 4, 101),
    ("<P><R>\n\n", 4, 102),
    ("<P><R>\n\n<J>", 4, 116),
    // Lines that are there, whatever in them is at fault.
    ("\n", 2, 0),
    ("<P1> X\n<L2>\n", 2, 0),
    ("<P1>\n<L2> X\n", 2, 12),
    ("<P1>\n\n", 2, 12),
    ("<P1>\n<L2>\n<L3> X\n", 3, 28),
    ("<P1>\n<L2>\n<L3>\n(SNOWTAM 7\n", 4, 51),
    ("<P1>\n<L2>\n<L3>\n<L4>\nXQA\n", 4, 65),
    ("<P>\n<R>)", 4, 70),
    ("<P>)", 5, 70),
    ("<P><R>\n)", 5, 101),
    ("<P><R>\n\n)", 8, 102),
    ("<P><R>\n\n<J><J>)", 8, 102),
    ("<P><R>\n\n\nAa.)", 9, 103),
    // Plain language without `)`.
    ("<P><R>\n\n\nA.\nB.)\n", 4, 110),
    // Bytes after the end.
    ("<P><R>)\n\n", 4, 102),
    ("<P><R>)\r\n)", 4, 103),
    // A runway twice, and what differs.
    ("<P><R>\n<R>)", 7, 110),
    ("<P1>\n<L2>\n<L3>\n(SNOWTAM 0008\n<L5>\n<R>)", 10, 60),
    ("<P1>\n<L2>\n<L3>\n<L4>\nXQAB\n<R>)", 11, 65),
    ("<P>01120639 07R <S>)", 12, 42),
    // A missing group, before the closing `)` and before the CR of CR LF.
    ("<P>01120640)", 24, 78),
    ("<P>01120640\r\n", 24, 78),
    ("<P>01120640 )\r\n", 24, 79),
    // A CR that ends no line is glued to the group before it.
    ("<P>01120640\r", 5, 70),
    ("<P>01120640 07\r)", 24, 79),
];

/// Rows of request 2, each with its place in its own text. <D> has 12 bytes, so that the codes stand at 12, coverages or
/// the descriptions of a short row at 18, depths at 27, descriptions at 36 and the width at 54.
const PLACED_ROWS: &[(&str, u8, usize)] = &[
    ("<D><LONG>FROST/FROST/FROST 30", 0, 0),
    // What is glued to a group belongs to it, and a tab parts nothing.
    ("01120640X 07 <S>", 5, 0),
    ("0112064007 <S>", 5, 0),
    ("01120640\t07 <S>", 5, 0),
    ("01120640 07X <S>", 24, 9),
    ("<D>6/6/6X DRY/DRY/DRY", 25, 12),
    ("<D>6/6/6/6 DRY/DRY/DRY", 25, 12),
    ("<D>6/ 6/6 DRY/DRY/DRY", 25, 12),
    ("<D>6/6/6\tDRY/DRY/DRY", 25, 12),
    ("<D>5/5/5 25/NR/NRX NR/NR/NR FROST/FROST/FROST", 26, 18),
    ("<D>5/5/5 25/NR/NR NR/NR/NRFROST/FROST/FROST", 26, 27),
    // A group of thirds is one group.
    ("<D>5/5/7 25/NR/NR NR/NR/NR FROST/FROST/FROST", 25, 12),
    ("<D>5/5/5 25/NR/30 NR/NR/NR FROST/FROST/FROST", 26, 18),
    ("<D>5/5/5 25/NR/NR NR/NR/02 FROST/FROST/SLUSH", 26, 27),
    ("<D><LONG>FROST/FROST/FRST", 27, 36),
    ("<D><LONG>FROST/FROST/", 27, 36),
    ("<D><LONG>FROST/FROST", 27, 36),
    // Spaces before the time, and nothing at all.
    (" <D><S>", 5, 0),
    ("   ", 5, 0),
    ("", 5, 0),
    // A missing group: behind trailing spaces.
    ("01120640", 24, 8),
    ("01120640 ", 24, 9),
    ("01120640 07", 25, 11),
    ("<D>", 25, 12),
    ("<D>6/6/6", 26, 17),
    ("<D>6/6/6  ", 26, 19),
    ("<D>5/5/5 25/NR/NR", 26, 26),
    ("<D>6/6/6 NR/NR/NR NR/NR/NR", 27, 35),
    // Something in its place is no missing group.
    ("01120640 6/6/6 DRY/DRY/DRY", 24, 9),
    ("<D>5/5/5 03/NR/NR SLUSH/WET/WET", 26, 18),
    // What is not short word for word is judged as a coverage.
    ("<D>6/6/6 DRY/DRY/DRY 00", 26, 18),
    ("<D>6/6/6 DRY/DRY/DRY 5", 26, 18),
    ("<D>6/6/6 DRY/DRY/DRY 100", 26, 18),
    ("<D>6/6/6 DRY/DRY/DRY ", 26, 18),
    ("<D>6/6/6 DRY/DRY/DRYX", 26, 18),
    ("<D>6/6/6 DRY/DRY/DRY 30 X", 26, 18),
    ("<D>6/6/6 DRY/DRY/DRY 30 ", 26, 18),
    ("<D>6/6/6 DRY/DRY/DRY SNOW ON", 26, 18),
    ("<D>6/6/6 NR/NR/NR 00", 26, 27),
    ("<D>6/6/6 NR/NR/NR 100", 26, 27),
    ("<D>6/6/6 NR/NR/NR ", 26, 27),
    ("<D>6/6/6 DYR/DRY/DRY", 26, 18),
    // Short where it is not allowed.
    ("<D>5/5/5 NR/NR/NR", 26, 18),
    ("<D>5/5/5 NR/NR/NR 30", 26, 18),
    ("<D>6/6/5 DRY/DRY/NR", 26, 18),
    // What is no coverage or depth at all, before the descriptions are read.
    ("<D>5/5/5 30/NR/NR NR/NR/NR X", 26, 18),
    ("<D>5/5/5 25/NR/NR 00/NR/NR X", 26, 27),
    ("<D>5/5/5 25/NR/NR 099/NR/NR X", 26, 27),
    ("<D>5/5/5 25/NR/NR 1000/NR/NR X", 26, 27),
    ("<D>5/5/5 25/NR/NR 02/NR/NR SLUSH/ICE/X", 26, 27),
    // What only its description forbids, after 27 and before 28, the coverages first.
    ("<D>5/5/5 25/NR/NR 03/NR/NR STANDING WATER/ICE/X", 27, 36),
    ("<D>5/5/5 25/NR/NR NR/NR/NR DRY/FROST/FROST 00", 26, 18),
    ("<D>5/5/5 NR/NR/25 04/NR/NR ICE/ICE/DRY", 26, 18),
    ("<D>5/5/5 25/NR/NR 03/NR/NR STANDING WATER/ICE/ICE 00", 26, 27),
    // The longest description, and what follows it.
    ("<D><LONG>FROSTX/FROST/FROST", 27, 36),
    ("<D><LONG>FROST/DRY SNOW ON TOP OF X/FROST", 27, 36),
    ("<D><LONG>FROST/FROST /FROST", 27, 36),
    ("<D><LONG>FROST/FROST/FROSTX 30", 28, 53),
    ("<D><LONG>FROST/FROST/ICEBERG", 28, 51),
    ("<D><LONG>FROST/FROST/DRY SNOW ON TOP OF X", 28, 57),
    ("<D><LONG>FROST/FROST/FROST/FROST", 28, 53),
    ("<D><LONG>FROST/FROST/FROST ", 28, 54),
    ("<D><LONG>FROST/FROST/FROST 00", 28, 54),
    ("<D><LONG>FROST/FROST/FROST 30X", 28, 54),
    ("<D><LONG>FROST/FROST/FROST 30 X", 28, 57),
    ("<D><LONG>FROST/FROST/FROST 30 ", 28, 57),
];

/// The messages by hand.
pub fn by_hand() -> Vec<Example> {
    let mut messages = vec![(EXAMPLE.to_string(), 0), (EXAMPLE_WRITTEN.to_string(), 0)];
    messages.extend(MESSAGES.iter().chain(season::MESSAGES).map(|&(text, number)| (text.to_string(), number)));
    messages.extend(ROWS.iter().map(|&(row, number)| (format!("<H>{row})\n"), number)));
    messages.extend(AWARENESS.iter().map(|&(line, number)| (format!("<H><R>\n\n^{line})\n"), number)));
    // 20: a space after the last full stop, before plain language.
    messages.push(("<H><R>\n\n^<J> \nA.)\n".to_string(), 8));
    messages.push(("<H><R>\n\n<J>\nA.)\n".to_string(), 0));
    messages.push(("<H><R>\r\n\r\nDRIFTING   SNOW.\r\nA.)".to_string(), 0));
    messages.extend(PLAIN.iter().map(|&(line, number)| (format!("<H><R>\n\n\n^{line})\n"), number)));
    for (length, number) in [(399, 0), (400, 0), (401, 9)] {
        messages.push((format!("<H><R>\n\n\n^{}.)\n", "A".repeat(length - 1)), number));
    }
    for (count, number) in [(32, 0), (33, 8)] {
        let items: String = (0..count).map(|name| format!("APRON {name} POOR.")).collect();
        messages.push((format!("<H><R>\n\n^{items})\n"), number));
    }
    for (count, number) in [(8, 0), (9, 2)] {
        let addresses = " XQAAYNYX".repeat(count);
        messages.push((format!("^GG{addresses}\n<L2>\n<L3>\n<L4>\n<L5>\n<R>)\n"), number));
    }
    // 10: the length of a message, of nothing else.
    let message = expanded("<H><R>)\n");
    let stretched = |length: usize| message.replacen(' ', &" ".repeat(1 + length - message.len()), 1);
    messages.push((stretched(4096), 0));
    messages.push((format!("^{}", " ".repeat(4096)), 2));
    let mut examples: Vec<Example> = messages.iter().map(|(text, number)| marked(text, *number)).collect();
    for text in [stretched(4097), " ".repeat(4097), " ".repeat(5000)] {
        examples.push(Example { text: text.into_bytes(), number: 1, place: 4096 });
    }
    examples.extend(PLACED_MESSAGES.iter().map(placed));
    // The heading has 70 bytes, and the row closes the notice.
    for (row, number, place) in PLACED_ROWS {
        let place = if *number == 0 { 0 } else { 70 + place };
        examples.push(placed(&(&format!("<P>{row})"), *number, place)));
    }
    examples
}

/// The rows by hand, to be read by themselves.
pub fn rows_by_hand() -> Vec<Example> {
    PLACED_ROWS.iter().map(placed).chain(ROWS.iter().map(|&(row, number)| marked(row, number))).collect()
}

/// The input of a desk that is sent a row by hand, as the only line.
pub fn at_desk(row: &Example) -> Vec<u8> {
    [b"XQAA 07/1\n1 ", &row.text[..], b"\r\n"].concat()
}

fn placed(&(text, number, place): &(&str, u8, usize)) -> Example {
    Example { text: expanded(text).into_bytes(), number, place }
}

/// A text in which the place of its refusal is marked; an accepted one needs no mark.
fn marked(text: &str, number: u8) -> Example {
    let text = expanded(text);
    let place = text.find('^').filter(|_| number > 0).unwrap_or(0);
    Example { text: text.replace('^', "").into_bytes(), number, place }
}

fn expanded(text: &str) -> String {
    SHORTHAND.iter().fold(text.to_string(), |text, (short, long)| text.replace(short, long))
}

/// All of them: those by hand, then seeded ones.
pub fn messages() -> Vec<Vec<u8>> {
    let mut messages: Vec<Vec<u8>> = by_hand().into_iter().map(|example| example.text).collect();
    let mut rng = Rng::new(1);
    // Two typings of a record side by side, and now and then a stretched one, up to the bound and over it.
    for place in 0..16 {
        let record = generate::record(&mut rng);
        messages.push(generate::typing(&mut rng, &record));
        messages.push(generate::typing(&mut rng, &record));
        match place % 8 {
            1 => messages.push(generate::stretched(&mut rng, &record, 4096)),
            3 => messages.push(generate::stretched(&mut rng, &record, 4097)),
            5 => messages.push(generate::stretched(&mut rng, &record, 2000)),
            _ => {}
        }
    }
    messages.extend((0..64).map(|_| generate::damaged(&mut rng).message));
    messages
}
