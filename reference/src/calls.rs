//! Lists of calls on a session, as values and as bytes, and their answers.
//!
//! A program that is compared reads calls on its standard input and writes answers on its standard
//! output, so that no session has to cross a boundary between languages.
//!
//! A call is a letter, two bytes of length (high first) and that many bytes, at most
//! [`MOST_BYTES`]; numbers are two bytes, and no lent buffer is longer than [`MOST_BYTES`].
//!
//! | letter | call | bytes |
//! |---|---|---|
//! | `O` | open a session | rate, then the doubtful list |
//! | `C` | open a capture | the capture |
//! | `D` | deliver | place, then 32 cost bytes |
//! | `R` | interpolant reading | the buffer's size |
//! | `W` | write a capture | the buffer's size |
//! | `X` | close | the sizes of the message buffer and of the report |
//! | `L` | look-up | place, then the capture |
//! | `U` | withdraw | place |
//!
//! The session that an opening returns, accepted or not, is the one that the calls after it use.
//! Every byte of a lent buffer is [`LENT`] before the call. The answer is the refusal's number or
//! 0, then all bytes of the lent buffers; to a look-up it is the part's length in two bytes, then
//! the part.
//!
//! - [`Call`], [`Call::bytes`], [`Call::read`]: one call, to and from bytes.
//! - [`Call::answer`]: the bytes that documents 01 and 02 ask for.
//! - [`answer_all`]: the answers to a stream of calls.

use crate::capture::{look_up, open_capture, write_capture};
use crate::refusal::{number, Refusal};
use crate::session::Session;
use crate::soft::{column_bytes, column_of_bytes, Column, COLUMN_BYTES};

/// What lent buffers hold before a call.
pub const LENT: u8 = 0xee;

/// The longest arguments and the longest lent buffer.
pub const MOST_BYTES: usize = 4096;

/// One call. Numbers are those of two bytes.
#[derive(Clone, Debug, PartialEq, Eq)]
pub enum Call {
    Open { rate: u16, doubtful: Vec<u8> },
    OpenCapture { capture: Vec<u8> },
    Deliver { place: u16, column: Column },
    ReadInterpolant { size: u16 },
    WriteCapture { size: u16 },
    Close { message: u16, report: u16 },
    LookUp { place: u16, capture: Vec<u8> },
    Withdraw { place: u16 },
}

impl Call {
    pub fn letter(&self) -> u8 {
        match self {
            Call::Open { .. } => b'O',
            Call::OpenCapture { .. } => b'C',
            Call::Deliver { .. } => b'D',
            Call::ReadInterpolant { .. } => b'R',
            Call::WriteCapture { .. } => b'W',
            Call::Close { .. } => b'X',
            Call::LookUp { .. } => b'L',
            Call::Withdraw { .. } => b'U',
        }
    }

    /// The call as it stands in a stream.
    pub fn bytes(&self) -> Vec<u8> {
        let arguments = self.arguments();
        assert!(arguments.len() <= MOST_BYTES);
        let length = arguments.len() as u16;
        let mut bytes = vec![self.letter()];
        bytes.extend(length.to_be_bytes());
        bytes.extend(arguments);
        bytes
    }

    fn arguments(&self) -> Vec<u8> {
        let join = |number: u16, bytes: &[u8]| [&number.to_be_bytes(), bytes].concat();
        match self {
            Call::Open { rate, doubtful } => join(*rate, doubtful),
            Call::OpenCapture { capture } => capture.clone(),
            Call::Deliver { place, column } => join(*place, &column_bytes(column)),
            Call::ReadInterpolant { size } | Call::WriteCapture { size } => join(*size, &[]),
            Call::Close { message, report } => join(*message, &report.to_be_bytes()),
            Call::LookUp { place, capture } => join(*place, capture),
            Call::Withdraw { place } => join(*place, &[]),
        }
    }

    /// The first call of a stream, and the bytes after it; none where there is no whole call.
    pub fn read(stream: &[u8]) -> Option<(Call, &[u8])> {
        let (letter, rest) = stream.split_first()?;
        let (length, rest) = split_number(rest)?;
        let (arguments, rest) = rest.split_at_checked(usize::from(length))?;
        Some((Call::of_arguments(*letter, arguments)?, rest))
    }

    fn of_arguments(letter: u8, arguments: &[u8]) -> Option<Call> {
        if letter == b'C' {
            let capture = arguments.to_vec();
            return Some(Call::OpenCapture { capture });
        }
        let (number, rest) = split_number(arguments)?;
        let call = match letter {
            b'O' => Call::Open {
                rate: number,
                doubtful: rest.to_vec(),
            },
            b'D' if rest.len() == COLUMN_BYTES => Call::Deliver {
                place: number,
                column: column_of_bytes(rest),
            },
            b'R' => Call::ReadInterpolant { size: number },
            b'W' => Call::WriteCapture { size: number },
            b'X' => Call::Close {
                message: number,
                report: split_number(rest)?.0,
            },
            b'L' => Call::LookUp {
                place: number,
                capture: rest.to_vec(),
            },
            b'U' => Call::Withdraw { place: number },
            _ => return None,
        };
        Some(call)
    }

    /// The answer, and the session as the call leaves it.
    pub fn answer(&self, session: &mut Session) -> Vec<u8> {
        match self {
            Call::Open { rate, doubtful } => {
                opened(Session::open(u64::from(*rate), doubtful), session)
            }
            Call::OpenCapture { capture } => opened(open_capture(capture), session),
            Call::Deliver { place, column } => {
                vec![number(&session.deliver(u64::from(*place), *column))]
            }
            Call::ReadInterpolant { size } => {
                lent([*size, 0], |out, _| session.read_interpolant(out))
            }
            Call::WriteCapture { size } => lent([*size, 0], |out, _| write_capture(session, out)),
            Call::Close { message, report } => lent([*message, *report], |message, report| {
                session.close(message, report)
            }),
            Call::LookUp { place, capture } => {
                let part = look_up(capture, u64::from(*place));
                [&(part.len() as u16).to_be_bytes(), part].concat()
            }
            Call::Withdraw { place } => vec![number(&session.withdraw(u64::from(*place)))],
        }
    }
}

fn split_number(bytes: &[u8]) -> Option<(u16, &[u8])> {
    let (number, rest) = bytes.split_first_chunk()?;
    Some((u16::from_be_bytes(*number), rest))
}

/// "A refused opening, of a capture too, hands back a new session of rate 39 with an empty
/// doubtful list."
fn opened(result: Result<Session, Refusal>, session: &mut Session) -> Vec<u8> {
    let answer = vec![number(&result)];
    *session = result.unwrap_or_default();
    answer
}

/// The number of a call on two lent buffers, and their bytes after it.
fn lent(
    sizes: [u16; 2],
    call: impl FnOnce(&mut [u8], &mut [u8]) -> Result<(), Refusal>,
) -> Vec<u8> {
    let [mut first, mut second] = sizes.map(|size| vec![LENT; usize::from(size)]);
    let number = number(&call(&mut first, &mut second));
    [&[number], &first[..], &second].concat()
}

/// The answers to a stream of calls, which starts with a new session of rate 39; none where the
/// stream isn't whole calls.
pub fn answer_all(mut stream: &[u8]) -> Option<Vec<u8>> {
    let mut session = Session::default();
    let mut answers = Vec::new();
    while !stream.is_empty() {
        let (call, rest) = Call::read(stream)?;
        answers.extend(call.answer(&mut session));
        stream = rest;
    }
    Some(answers)
}

#[cfg(test)]
mod tests {
    use super::*;

    #[test]
    fn a_withdrawal_is_its_letter_and_place() {
        let calls = [0x0107, 7].map(|place| Call::Withdraw { place }.bytes());
        assert_eq!(calls, [[85, 0, 2, 1, 7], [85, 0, 2, 0, 7]]);
        let delivery = Call::Deliver {
            place: 7,
            column: [1; 16],
        };
        let [unknown, seven] = &calls;
        let stream = [&delivery.bytes(), &unknown[..], seven, seven].concat();
        assert_eq!(answer_all(&stream), Some(vec![0, 5, 0, 13]));
    }
}
