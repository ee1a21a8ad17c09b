//! A script's lines `+ K V` and `= K` over the original crate, answered as docs/SCRIPTS.md says.

use cedarwood::Cedar;
use std::io::{self, BufRead, BufWriter, Write};

fn digit(byte: u8) -> u8 {
    match byte {
        b'0'..=b'9' => byte - b'0',
        _ => byte - b'a' + 10,
    }
}

fn read_key(word: &[u8], key: &mut Vec<u8>) {
    key.clear();
    key.extend(word.chunks_exact(2).map(|pair| digit(pair[0]) << 4 | digit(pair[1])));
}

pub fn answer() {
    let mut cedar = Cedar::new();
    let (mut input, mut output) = (io::stdin().lock(), BufWriter::new(io::stdout().lock()));
    let (mut line, mut key) = (Vec::new(), Vec::new());
    while input.read_until(b'\n', &mut line).expect("a line") > 0 {
        let mut words = line.trim_ascii_end().split(|&byte| byte == b' ');
        let command = words.next();
        read_key(words.next().unwrap_or_default(), &mut key);
        let told = match command {
            Some(b"+") => {
                let value = words.next().unwrap_or_default().iter().fold(0, |value, &byte| value * 10 + i32::from(byte - b'0'));
                match cedar.update_bytes(&key, value) {
                    Ok(()) => writeln!(output, "ok"),
                    Err(error) => writeln!(output, "refused {error:?}"),
                }
            }
            Some(b"=") => match cedar.exact_match_search_bytes(&key) {
                Some((value, length)) => writeln!(output, "{value} {length}"),
                None => writeln!(output, "none"),
            },
            _ => writeln!(output, "bad line"),
        };
        told.expect("an answer");
        line.clear();
    }
}
