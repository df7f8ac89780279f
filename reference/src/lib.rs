//! A Hermitian Chase decoder by another hand, written from documents 01 and 02 alone, to run the
//! proved library against. It shares no table and no method with it:
//!
//! - products are polynomial arithmetic on bits ([`field`], and [`row`] for 64 at once);
//! - the points of the curve are searched for, the monomials enumerated ([`curve`]);
//! - encoding sums monomials, reading back solves linear equations ([`code`], [`linear`]), with one code
//!   for each rate from 6 to 52;
//! - the least Q is found by elimination over its terms ([`least`]); for the elimination engine's call, which
//!   does so itself, by Kötter's steps on rows of coefficients ([`steps`]), and the codeword without it
//!   ([`engine`]);
//! - each test word is decoded by itself, with an error locator and checks from which blank places
//!   are eliminated, and of a tree of 4,096 the first one's syndromes serve all ([`nearest`]); answer and
//!   margin are the first two totals of all codewords found ([`decode`]);
//! - the mark sorts the gaps of the unchanged places and sums them from the front ([`mark`]);
//! - doubtful places by threshold and maximum are taken from the front of the places sorted by gap, one
//!   after the other ([`soft`]);
//! - a column from bit values is what is left of their magnitudes where signs agree, from a table of
//!   the sixteen symbols' bits ([`bits`]);
//! - a session keeps the row of the book, as its places arrived, and computes each answer from it; a
//!   withdrawal takes an entry out of the row ([`session`]); a capture is written from the row sorted
//!   by place ([`capture`]);
//! - a superframe is a matrix of 64 rows of eight symbols, transposed to words ([`superframe`]).
//!
//! One frame from opening to closing, with a wrong symbol at place 7:
//!
//! ```
//! use reference::session::Session;
//!
//! let mut session = Session::open(39, &[]).unwrap();
//! for place in (0..64).rev() {
//!     let mut column = [40; 16];
//!     column[if place == 7 { 3 } else { 0 }] = 0;
//!     session.deliver(place, column).unwrap();
//! }
//! let (mut message, mut report) = ([99; 39], [99; 14]);
//! session.close(&mut message, &mut report).unwrap();
//! assert_eq!(message, [0; 39]);
//! assert_eq!(report, [0, 0, 0, 40, 0, 1, 0, 1, 0, 0, 0, 0, 0, 1]);
//! ```
//!
//! # Comparing
//!
//! [`frames`] makes frames of thirteen kinds from a seed, each with every number of blank places, [`pairs`]
//! those between codewords at least distance, [`fades`] those with consecutive places of noise, [`damage`]
//! captures with faults, [`versions`] those of both versions with each fault, [`arrivals`] five sorts of
//! order in which places arrive, [`below_frames`] thresholds and maxima, [`bit_frames`] bit values, all at
//! rates 39 and 49; [`rates`] makes frames at every rate around what the rule decides there,
//! [`mark_frames`] around what the mark does, [`sure_frames`] around what is sure with doubtful places, and
//! [`engine_words`] calls of the elimination engine. The binary `compare` runs them in two ways. It counts
//! the frames with each number of doubtful places, with blank ones and with a margin, the tables in which a
//! pinned second is not chosen as doubtful, the captures of both versions, with what wrong rules would make
//! of them, those written after each sort of order, the withdrawals of each sort, the sorts of fades, those
//! of thresholds, with what wrong rules would lead to ([`slips`]), those of bit values and those of rates,
//! with what wrong rules would lead to, those of marks, with what wrong rules would mark ([`mark_slips`]),
//! those of what is sure, with what wrong sentences would promise ([`sure_counts`]), those of the engine's
//! calls, with what wrong rules would answer ([`engine_slips`]), and fails where they are too few to try it
//! ([`doubts`], [`blanks`], [`margins`], [`choices`], [`version_counts`], [`written`], [`withdrawals`],
//! [`fade_counts`], [`below_counts`], [`bit_counts`], [`rate_counts`], [`mark_counts`], [`sure_counts`],
//! [`engine_counts`]). That a marked answer costs least is tried at small rates by a search through all
//! codewords ([`cheapest`]).
//!
//! [`superframe_calls`] makes superframes with bursts, words beyond repair and faults of every kind, those of
//! [`superframe_turns`]; they are counted, with what wrong rules would answer ([`superframe_counts`],
//! [`superframe_slips`]).
//!
//! [`whole_captures`] makes captures to be decoded, sorted and made as the firmware does it, and counts them.
//!
//! Calls that cross as numbers and byte slices are linked: with the feature `proved`, and with
//! `MODEM_LIB_DIR` naming the folder of `libmodem.a`, `compare code`, `compare tables`, `compare below`,
//! `compare bits`, `compare fades`, `compare rates`, `compare marks`, `compare sure` and `compare superframes`
//! run the trials of [`trials`] on both libraries, and `compare captures` the calls of [`whole_captures`].
//!
//! Sessions and captures are compared by stream: a program reads calls on its standard input and writes
//! answers on its standard output, laid out as in [`calls`]; `compare run` starts it on the lists of
//! [`call_lists`] and [`withdrawal_lists`] and names the first answer that differs, and `compare fades`,
//! `compare rates`, `compare marks` and `compare sure` on a session for each of their frames. `compare engines`
//! does the same with a program that answers the engine's calls, and `compare shows` with one that prints as
//! `show` does; so does `compare rates`.
//!
//! ```text
//! cargo test --offline
//! cargo run --offline --release --bin compare -- run OCDRWXLU 1 3000 PROGRAM
//! MODEM_LIB_DIR=.. cargo run --offline --release --features proved --bin compare -- code 1 40000
//! ```
//!
//! # Measuring
//!
//! Four binaries want the feature `proved` and are started by scripts: `bench` by `bench/run`, on the
//! calls of [`measured`], `worst` by `bench/worst`, which draws frames in search of those that cost most
//! ([`worst`]), `error_rates` by `bench/error-rates`, which sends codewords through a [`channel`]
//! ([`sent`]) and draws curves ([`plot`]), and `thresholds` by `bench/thresholds`, which decodes the same
//! frames by doubt and by threshold. What a call costs is counted by [`counted`]. `bench/engines` counts
//! calls that `compare engine` writes.
//!
//! A fifth, `bounds`, is started by `tests/statement`: it tries the numbers of the statement of each rate on
//! the proved library, inside and outside.

pub mod arrivals;
pub mod below_counts;
pub mod below_frames;
pub mod bit_counts;
pub mod bit_frames;
pub mod bits;
pub mod blanks;
pub mod call_lists;
pub mod calls;
pub mod capture;
pub mod channel;
pub mod cheapest;
pub mod choices;
pub mod code;
pub mod counted;
pub mod curve;
pub mod damage;
pub mod decode;
pub mod doubts;
pub mod engine;
pub mod engine_counts;
pub mod engine_slips;
pub mod engine_words;
pub mod fade_counts;
pub mod fades;
pub mod faults;
pub mod field;
pub mod frames;
pub mod least;
pub mod light;
pub mod linear;
pub mod margins;
pub mod mark;
pub mod mark_counts;
pub mod mark_frames;
pub mod mark_slips;
pub mod measured;
pub mod nearest;
pub mod pairs;
pub mod plot;
#[cfg(feature = "proved")]
pub mod proved;
pub mod random;
pub mod rate_counts;
pub mod rates;
pub mod refusal;
pub mod row;
pub mod sent;
pub mod session;
pub mod show;
pub mod slips;
pub mod soft;
pub mod steps;
pub mod streams;
pub mod superframe;
pub mod superframe_calls;
pub mod superframe_counts;
pub mod superframe_slips;
pub mod superframe_turns;
pub mod sure_counts;
pub mod sure_frames;
pub mod trials;
pub mod version_counts;
pub mod versions;
pub mod whole_captures;
pub mod withdrawal_lists;
pub mod withdrawals;
pub mod worst;
pub mod written;
