//! The score's reader beside the second implementation's own: on every example, on all small inputs of some bytes, on
//! every byte that can begin a command, and on commands that are cut.
use dozhumek::{load, Refusal, RefusedAt, Score};
use second::load::wanted;
use std::fs;
use std::path::PathBuf;

/// A wanted step, or the number and the position of a refusal.
type Read = Result<u32, (u64, usize)>;

/// A score as the binding reads it.
fn by_binding(stream: &[u8], position: usize) -> Vec<Read> {
    let told = |refused: RefusedAt| (refused.refusal.number(), refused.position);
    Score::new(stream, position).map(|wanted| wanted.map_err(told)).collect()
}

/// A score as the second implementation reads it, up to its end or its first refusal.
fn by_second(stream: &[u8], mut position: usize) -> Vec<Read> {
    let mut read = Vec::new();
    loop {
        match wanted(stream, position) {
            Ok(None) => return read,
            Ok(Some((step, behind))) => {
                read.push(Ok(step));
                position = behind;
            }
            Err(refusal) => {
                read.push(Err((refusal.number.into(), refusal.position)));
                return read;
            }
        }
    }
}

/// Fails unless both read the same from every position on, past the end too.
fn same(stream: &[u8]) {
    for position in 0..stream.len() + 3 {
        assert_eq!(by_binding(stream, position), by_second(stream, position), "{stream:?} from {position}");
    }
}

/// The bytes that a file in hexadecimal spells.
fn spelled(text: &str) -> Vec<u8> {
    let code = text.lines().map(|line| line.split('#').next().unwrap_or(""));
    let digits: String = code.flat_map(str::chars).filter(|c| !c.is_whitespace()).collect();
    let pairs = digits.as_bytes().chunks(2).map(|pair| std::str::from_utf8(pair).unwrap());
    pairs.map(|pair| u8::from_str_radix(pair, 16).unwrap()).collect()
}

/// The streams of examples/, by file.
fn examples() -> Vec<(PathBuf, Vec<u8>)> {
    let folder = concat!(env!("CARGO_MANIFEST_DIR"), "/../../examples");
    let files = fs::read_dir(folder).unwrap().map(|file| file.unwrap().path());
    let hexadecimal = files.filter(|file| file.extension().is_some_and(|kind| kind == "hex"));
    hexadecimal.map(|file| (file.clone(), spelled(&fs::read_to_string(&file).unwrap()))).collect()
}

#[test]
fn examples_beside_the_second() {
    let mut steps = 0;
    for (file, stream) in examples() {
        same(&stream);
        let (bound, other) = (load(&stream), second::load(&stream));
        match (bound, other) {
            (Ok(bound), Ok(other)) => {
                assert_eq!(bound.position, other.end, "{}", file.display());
                steps += by_binding(&stream, bound.position).iter().filter(|wanted| wanted.is_ok()).count();
            }
            (Err(bound), Err(other)) => {
                let told = (bound.refusal.number(), bound.position);
                assert_eq!(told, (other.number.into(), other.position), "{}", file.display());
            }
            _ => panic!("{}: one of them refuses it", file.display()),
        }
    }
    assert!(steps > 100, "the examples have {steps} wanted steps");
}

#[test]
fn all_small_inputs() {
    let bytes = [0, 1, 5, 6, 7, 255];
    let mut streams = vec![vec![]];
    for _ in 0..6 {
        let longer = |stream: &Vec<u8>| bytes.map(|byte| [&stream[..], &[byte]].concat());
        streams = streams.iter().flat_map(longer).collect();
        streams.iter().for_each(|stream| same(stream));
    }
    assert_eq!(streams.len(), 6usize.pow(6));
}

#[test]
fn bad_bytes() {
    let score = [6, 8, 0, 0, 0, 6, 255, 255, 255, 255];
    for byte in 0..=255 {
        for behind in 0..6 {
            let stream = [&score[..], &[byte], &vec![0; behind]].concat();
            same(&stream);
            let refusal = match byte {
                6 => Refusal::Cut,
                1..=5 => Refusal::OutOfPlace,
                _ => Refusal::UnknownCommand,
            };
            if byte != 6 || behind < 4 {
                let due = [Ok(8), Ok(u32::MAX), Err((refusal.number(), 10))];
                assert_eq!(by_binding(&stream, 0), due);
            }
        }
    }
}

#[test]
fn cut_commands() {
    let score: Vec<u8> = [1u32, 0, 1 << 24, 0x0403_0201].into_iter().flat_map(command).collect();
    let whole = by_binding(&score, 0);
    assert_eq!(whole, [1, 0, 1 << 24, 0x0403_0201].map(Ok));
    for length in 0..score.len() {
        same(&score[..length]);
        let mut due = whole[..length / 5].to_vec();
        if length % 5 > 0 {
            due.push(Err((1, length / 5 * 5)));
        }
        assert_eq!(by_binding(&score[..length], 0), due);
    }
}

/// The command of a wanted step.
fn command(wanted: u32) -> [u8; 5] {
    let [a, b, c, d] = wanted.to_le_bytes();
    [6, a, b, c, d]
}

#[test]
fn empty_scores() {
    // No bytes, none after the position, and a position past the end.
    for (stream, position) in [(&[][..], 0), (&[], 7), (&[6, 1, 0, 0, 0], 5), (&[6, 1, 0, 0, 0], usize::MAX)] {
        let mut score = Score::new(stream, position);
        assert_eq!((score.position(), score.next(), score.next()), (stream.len(), None, None));
    }
}

#[test]
fn positions() {
    let stream = [9, 6, 8, 0, 0, 0, 6, 1, 0, 0, 0, 7, 6, 2, 0, 0, 0];
    let mut score = Score::new(&stream, 1);
    assert_eq!((score.position(), score.next(), score.position()), (1, Some(Ok(8)), 6));
    assert_eq!((score.next(), score.position()), (Some(Ok(1)), 11));
    // What is refused ends the score, and what lies after it is not read.
    let refused = RefusedAt { refusal: Refusal::UnknownCommand, position: 11 };
    assert_eq!((score.next(), score.position()), (Some(Err(refused)), stream.len()));
    assert_eq!((score.next(), score.next()), (None, None));
}
