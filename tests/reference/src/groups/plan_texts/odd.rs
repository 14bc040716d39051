//! Texts of steps with something odd in one place.

use super::model::plain;
use crate::harness::model::Step;

/// The plain text up to its last line, that line, and its row and number.
fn parts(steps: &[Step]) -> (String, String, usize, usize) {
    let text = plain(steps);
    let (head, last) = text.trim_end().rsplit_once('\n').expect("two lines at least");
    let step = steps.last().expect("a step");
    (head.to_string(), last.to_string(), step.row, step.number)
}

/// 0 to 999 for the last row and for the last number.
pub fn every_number(steps: &[Step]) -> Vec<String> {
    let (head, _, row, number) = parts(steps);
    let numbers = (0..1_000).map(|n| format!("{head}\n{row},D,{n}\n"));
    let rows = (0..1_000).map(|n| format!("{head}\n{n},R,{number}\n"));
    numbers.chain(rows).collect()
}

/// The last line odd, with line ends of several sorts around it.
pub fn odd_lines(steps: &[Step]) -> Vec<String> {
    let (head, last, row, number) = parts(steps);
    let digits = [
        format!("{row:04},R,{number}"),
        format!("{row},R,{number:04}"),
        format!("0005,D,{number}"),
        format!("{row:03},d,{number:03}"),
        format!("{row:02},r,{number:02}"),
        format!("{row},R,"),
        format!(",R,{number}"),
        format!("+{last}"),
        format!("-{last}"),
    ];
    let fields = [
        format!("{row},,{number}"),
        format!("{row}R{number}"),
        format!("{row},RR,{number}"),
        format!("{row},R,{number},"),
        last.replace(',', ";"),
        last.replace(',', ",,"),
        last.to_lowercase(),
        last.to_uppercase(),
    ];
    let around = ["@", " @", "@ ", "@\r", "@\r\r", "@\n", "\n@", "@\n@", "@\0", "", "\r"];
    let around = around.map(|form| form.replace('@', &last));
    let lines = digits.into_iter().chain(fields).chain(around);
    let ended = |line: String| {
        ["\n@\n", "\n@\r\n", "\r@\n", "\n\r@\n"]
            .map(|form| head.clone() + &form.replace('@', &line))
    };
    lines.flat_map(ended).collect()
}

/// Something after the last line, or its end missing; cut at every place; line ends of other sorts.
pub fn odd_ends(steps: &[Step]) -> Vec<String> {
    let text = plain(steps);
    let unended = text.trim_end();
    let ends = [
        "",
        "\r",
        "\n\n",
        "\r\n\r\n",
        "\n\r\n",
        "\n ",
        "\n\0",
        "\nx",
        "\r\n0,R,0\n",
        "\n0,R,0\r\n",
    ];
    let others =
        [text.replace('\n', "\r"), text.replace('\n', "\r\r\n"), text.replacen('\n', "", 1)];
    let cut = (0..text.len()).map(|end| text[..end].to_string());
    ends.iter().map(|end| format!("{unended}{end}")).chain(others).chain(cut).collect()
}

/// Other names, or none.
pub fn odd_names(steps: &[Step]) -> Vec<String> {
    let names = [
        "Row,set,number",
        "ROW,SET,NUMBER",
        "row,set",
        "row,set,number ",
        " row,set,number",
        "row;set;number",
        "row,set,number,new",
        "",
        "step,row,set,number,new",
        "p,lost",
        "\u{feff}row,set,number",
    ];
    let text = plain(steps);
    let renamed = names.iter().map(|names| text.replacen("row,set,number", names, 1));
    renamed.chain([text.replacen("row,set,number\n", "", 1)]).collect()
}
