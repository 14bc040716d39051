//! Inputs of the plan program, well formed and others.

/// The input that has these values.
pub fn well_formed(p: usize, lost: usize) -> Vec<u8> {
    format!("p,lost\n{p},{lost}\n").into_bytes()
}

/// Inputs of every sort.
pub fn all() -> Vec<Vec<u8>> {
    let mut inputs = values();
    inputs.extend(other_forms());
    inputs.extend(long_inputs());
    for input in [well_formed(5, 1), well_formed(31, 32)] {
        inputs.extend(one_byte_changed(&input));
        inputs.extend(one_byte_more_or_less(&input));
    }
    inputs.push(Vec::new());
    inputs
}

/// Pairs of numbers of one or two digits.
fn values() -> Vec<Vec<u8>> {
    let mut inputs = Vec::new();
    for p in 0..=99usize {
        let mut disks = vec![0, 1, 2, p.saturating_sub(1), p, p + 1, p + 2, 99];
        disks.sort();
        disks.dedup();
        inputs.extend(disks.into_iter().map(|lost| well_formed(p, lost)));
    }
    for p in [5, 31] {
        inputs.extend((0..=99).map(|lost| well_formed(p, lost)));
    }
    inputs
}

/// Inputs that lack a line or a line's end, or have more than the two lines.
const OTHER_LINES: [&[u8]; 24] = [
    b"p,lost\n",
    b"p,lost",
    b"p",
    b"\n",
    b"\n\n",
    b"5,1\n",
    b"5,1",
    b"\n5,1\n",
    b"p,lost\n\n",
    b"p,lost\n5,1",
    b"p,lost5,1\n",
    b"p,lost\r\n5,1\r\n",
    b"p,lost\r\n5,1\n",
    b"p,lost\n5,1\r\n",
    b"p,lost\r5,1\r",
    b"p,lost\n5,1\r",
    b"p,lost\n5,1\n\n",
    b"p,lost\n5,1\n ",
    b"p,lost\n5,1\n\0",
    b"p,lost\n5,1\nx",
    b"p,lost\n5,1\n5,1\n",
    b"p,lost\n5,1\np,lost\n5,1\n",
    b"p,lost\np,lost\n5,1\n",
    b"p,lost\n\n5,1\n",
];

/// Other names lines.
const OTHER_NAMES: [&[u8]; 18] = [
    b"",
    b"p",
    b"P,lost",
    b"p,Lost",
    b"P,LOST",
    b"lost,p",
    b"p,disk",
    b"p,los",
    b"p,lostt",
    b"plost",
    b"p;lost",
    b"q,lost",
    b"p,lost ",
    b" p,lost",
    b"p, lost",
    b"p,lost,",
    b"\"p\",\"lost\"",
    b"\xEF\xBB\xBFp,lost",
];

/// Other values lines.
const OTHER_VALUES: [&[u8]; 34] = [
    b"",
    b",",
    b"5",
    b"51",
    b"5,",
    b",1",
    b"5,1,",
    b",5,1",
    b"5,1,0",
    b"5,,1",
    b"5;1",
    b"5.1",
    b"5 1",
    b"5\t1",
    b"5\n1",
    b" 5,1",
    b"5 ,1",
    b"5, 1",
    b"5,1 ",
    b"05,1",
    b"5,01",
    b"00,1",
    b"5,00",
    b"005,1",
    b"+5,1",
    b"5,+1",
    b"-5,1",
    b"5,-1",
    b"5,1e0",
    b"0x5,1",
    b"five,1",
    b"\xFF,1",
    b"5,\xB2",
    b"\xEF\xBC\x95,1",
];

/// Values of three digits and more.
const LONG_VALUES: [(usize, usize); 11] = [
    (100, 1),
    (5, 100),
    (131, 1),
    (261, 1),
    (5, 256),
    (5, 257),
    (999, 999),
    (usize::MAX, 1),
    (5, usize::MAX),
    ((1 << 32) + 5, 1),
    (5, (1 << 32) + 1),
];

/// Inputs that differ from the form in one of many ways.
fn other_forms() -> Vec<Vec<u8>> {
    let mut inputs: Vec<Vec<u8>> = OTHER_LINES.iter().map(|lines| lines.to_vec()).collect();
    inputs.extend(OTHER_NAMES.iter().map(|names| [names, &b"\n5,1\n"[..]].concat()));
    inputs.extend(OTHER_VALUES.iter().map(|values| [b"p,lost\n", *values, b"\n"].concat()));
    inputs.extend(LONG_VALUES.iter().map(|(p, lost)| well_formed(*p, *lost)));
    inputs
}

/// Inputs of 5,000 and 70,000 bytes, of a megabyte, and around pages.
fn long_inputs() -> Vec<Vec<u8>> {
    let good = well_formed(5, 1);
    let mut inputs = Vec::new();
    for length in [5_000, 70_000, 1 << 20, 4_095, 4_096, 4_097, 65_535, 65_536, 65_537] {
        let filled = |start: &[u8], byte: u8| {
            let mut input = start.to_vec();
            input.resize(length, byte);
            input
        };
        inputs.push(filled(b"", b'p'));
        inputs.push(filled(b"p,lost\n", b'5'));
        inputs.push(filled(b"p,lost\n5,", b'1'));
        for byte in [b'\n', b' ', 0, b'1'] {
            inputs.push(filled(&good, byte));
        }
        inputs.push(good.iter().copied().cycle().take(length).collect());
        let mut zeros = filled(b"p,lost\n", b'0');
        zeros.extend(b"5,1\n");
        inputs.push(zeros);
    }
    inputs
}

/// All values of each single byte.
fn one_byte_changed(input: &[u8]) -> Vec<Vec<u8>> {
    let mut inputs = Vec::new();
    for place in 0..input.len() {
        for byte in 0..=255 {
            let mut changed = input.to_vec();
            changed[place] = byte;
            inputs.push(changed);
        }
    }
    inputs
}

/// A byte left out, the end left out, or a byte put in at each place.
fn one_byte_more_or_less(input: &[u8]) -> Vec<Vec<u8>> {
    let mut inputs = Vec::new();
    for place in 0..=input.len() {
        inputs.push(input[..place].to_vec());
        if place < input.len() {
            inputs.push([&input[..place], &input[place + 1..]].concat());
        }
        for byte in *b"\0\t\n\r +,-.0159p\xFF" {
            inputs.push([&input[..place], &[byte], &input[place..]].concat());
        }
    }
    inputs
}
