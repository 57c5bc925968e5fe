//! The messages that are measured: accepted ones of 400 and of 4,096 bytes, and refused ones.

pub const TYPICAL: usize = 400;
pub const LONG: usize = 4096;

pub struct Input {
    pub name: &'static str,
    pub message: Vec<u8>,
    /// Another typing of the same notice, or the refused message itself.
    pub other: Vec<u8>,
    pub refusal: u8,
}

const NOTICE: &str = "GG XQAAYNYX XQBBYOYX
120645 XQAAYNYX
SWXQ0007 XQAA 01120640
(SNOWTAM 0007
XQAA
01120610 07L 3/5/5 75/25/NR 12/NR/NR DRY SNOW/FROST/DRY
01120625 07R 5/5/5 100/100/75 NR/NR/NR WET/WET/WET 40
01120640 12 6/6/6 DRY/DRY/DRY

RWY 07L REDUCED TO 2100. DRIFTING SNOW. RWY 07L SNOWBANK LR20 FM CL. TWY A W SNOWBANK. APRON NORTH POOR.
RWY 07R SWEPT 40M AND TREATED WITH SAND. NEXT REPORT 0900, DELAYS LIKELY.)
";

/// Rows, items and plain language in full number.
fn full_notice() -> String {
    let addresses: String = ('A'..='H').map(|letter| format!(" XQ{letter}{letter}YNYX")).collect();
    let rows: String = (1..=8)
        .map(|n| {
            format!(
                "011206{n:02} {n:02}C 3/3/0 100/75/50 112/NR/NR \
                 WET SNOW/WET SNOW ON TOP OF COMPACTED SNOW/DRY SNOW ON TOP OF ICE 45\n"
            )
        })
        .collect();
    let on_runways =
        |count: u8, what: &str| -> Vec<String> { (1..=count).map(|n| format!("RWY {n:02}R {what}.")).collect() };
    let items = [
        on_runways(6, "REDUCED TO 2100"),
        vec!["DRIFTING SNOW.".to_string()],
        on_runways(4, "LOOSE SAND"),
        on_runways(4, "CHEMICALLY TREATED"),
        on_runways(6, "SNOWBANK LR20 FM CL"),
        vec!["TWY A B1 C22 D E3 F44 G H5 SNOWBANK.".to_string()],
        on_runways(4, "ADJ SNOWBANK"),
        vec!["TWY J K1 L22 M N3 P44 Q R5 POOR.".to_string()],
        (1..=5).map(|n| format!("APRON TERMINAL{n} POOR.")).collect(),
    ];
    let words = "RWY 07R SWEPT 40M AND TREATED WITH SAND, NEXT REPORT 0900/0930: EXPECT DELAYS - ";
    let language: String = words.chars().cycle().take(399).collect();
    format!(
        "GG{addresses}\n120645 XQAAYNYX\nSWXQ0007 XQAA 01120608\n(SNOWTAM 0007\nXQAA\n{rows}\n{}\n{language}.)\n",
        items.concat().join(" ")
    )
}

/// Freedoms (a), (c) and (d); (b) comes with `spaced`.
fn retyped(notice: &str) -> String {
    let (text, language) = parted(notice);
    let text = text.replace(". ", ".").replace(" 6/6/6 ", " 6/6/6 NR/NR/NR NR/NR/NR ");
    (text + language).replace('\n', "\r\n")
}

/// The lines in which spaces may be added, and the plain language.
fn parted(notice: &str) -> (String, &str) {
    let end = notice.trim_end().rfind('\n').map_or(0, |place| place + 1);
    (notice[..end].to_string(), &notice[end..])
}

/// The notice with exactly `length` bytes, by spaces shared out evenly among its gaps.
fn spaced(notice: &str, length: usize) -> Vec<u8> {
    let (text, language) = parted(notice);
    let gaps = text.matches(' ').count();
    let missing = length.saturating_sub(notice.len());
    let mut message = Vec::new();
    let mut gap = 0;
    for byte in text.bytes() {
        message.push(byte);
        if byte == b' ' {
            let count = missing * (gap + 1) / gaps - missing * gap / gaps;
            message.resize(message.len() + count, b' ');
            gap += 1;
        }
    }
    message.extend(language.bytes());
    message
}

fn refused(name: &'static str, refusal: u8, message: Vec<u8>) -> Input {
    Input { name, other: message.clone(), message, refusal }
}

fn accepted(name: &'static str, message: Vec<u8>, other: Vec<u8>) -> Input {
    Input { name, message, other, refusal: 0 }
}

pub fn inputs() -> Vec<Input> {
    let full = full_notice();
    let damaged = |from: &str, to: &str| NOTICE.replacen(from, to, 1).into_bytes();
    let unclosed = |notice: &str| notice.replace(')', ".");
    vec![
        accepted("typical", NOTICE.into(), spaced(&retyped(NOTICE), TYPICAL + 50)),
        accepted("spaced", spaced(NOTICE, LONG), spaced(&retyped(NOTICE), LONG)),
        accepted("dense", spaced(&full, LONG), spaced(&retyped(&full), LONG)),
        // Too long; in the first line; in the second row; in the last item; at the last comparison; 4,096 bytes unclosed.
        refused("refused-1", 1, spaced(NOTICE, LONG + 1)),
        refused("refused-2", 2, damaged("XQAAYNYX", "XQ4AYNYX")),
        refused("refused-5", 5, damaged("01120625", "01122425")),
        refused("refused-8", 8, damaged("POOR", "POUR")),
        refused("refused-12", 12, damaged("01120640", "01120641")),
        refused("refused-4", 4, spaced(&unclosed(&full), LONG)),
    ]
}

#[cfg(test)]
mod tests {
    use super::*;
    use compare::reader;

    #[test]
    fn the_inputs_are_what_they_are_called() {
        for Input { name, message, other, refusal } in inputs() {
            assert_eq!(reader::read(&message).err().map_or(0, |refused| refused.number), refusal, "{name}");
            assert_eq!(reader::same(&message, &other), refusal == 0, "{name}");
            let length = match name {
                "spaced" | "dense" | "refused-4" => LONG,
                "refused-1" => LONG + 1,
                _ => TYPICAL,
            };
            assert_eq!(message.len(), length, "{name}");
        }
    }
}
