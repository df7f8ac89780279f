//! The codeword within T of one word, by an error locator and linear solving.
//!
//! - [`Finder`]: a code with the checks that elimination computes once for it.
//! - [`Finder::unblanked`]: the places that are not blank, with what elimination computes once for a
//!   frame; none where too many are blank.
//! - [`Unblanked::nearest`]: the codeword that differs from a word in at most T of them, or none.
//! - [`Unblanked::nearest_of_tree`]: the same for all words of a tree, which share their syndromes.
//!
//! Of the 64 places b are blank. Let f be a function of order at most M that differs from the word t
//! in at most T of the others. The functions of order at most T + 6 have dimension above T, so one of
//! them, E ≠ 0, is zero where they differ, and at every place that is not blank E·t is N = E·f, a
//! function of order at most T + 6 + M.
//!
//! Conversely take any E ≠ 0 of order at most T + 6 whose product with t is, at the places that are
//! not blank, some N of order at most T + 6 + M. Then E·f − N is zero wherever f and t agree there, in
//! 64 − b − T places or more, and has fewer zeros than that if it isn't zero, since
//! 2T + b < 64 − M − 6. So E·f = N: where E is not zero, f agrees with t. The zeros of E, at most
//! T + 6, and the blank places are fewer than the least distance 64 − M, so the symbols of f there are
//! determined by the code's checks. Whatever is found that way is a codeword, and its differences
//! from t are counted.
//!
//! Which words are such an N at the places that are not blank is said by the combinations of N's
//! checks that are zero at the blank ones: the blank places are eliminated from these checks (the
//! checks of the punctured code).
//!
//! What these checks say of E·t is linear in t. So a word that differs from another at one place has its
//! syndromes and a multiple of that place's, and a tree of words, each doubled place one step, needs the
//! checks of its first word only. Two codewords within T of the same word would differ in 2T + b places
//! at most, fewer than the least distance: a word within T of a codeword found before has no other.

use std::borrow::Cow;
use std::sync::OnceLock;

use crate::code::{number_of_rate, Code, RATE_COUNT};
use crate::curve::{monomials, GENUS, PLACES};
use crate::field;
use crate::linear::Span;
use crate::refusal::Refusal;
use crate::row::{Row, LANES};

/// A codeword and its message.
#[derive(Clone, Debug, PartialEq, Eq)]
pub struct Near {
    pub message: Vec<u8>,
    pub codeword: Row,
}

/// Finds near codewords of one code.
pub struct Finder<'a> {
    code: &'a Code,
    /// The key equation of each T, up to the one without blank places.
    keys: Vec<Key>,
    /// The terms of a locator where no place is blank.
    whole: Vec<LocatorTerm>,
    /// Lane r of entry p is check r of the code at place p.
    check_columns: Vec<Row>,
    /// The checks of the code.
    checks: Vec<Row>,
}

/// What a locator is made of, and what its product with a word has to pass, with one T.
struct Key {
    /// The monomials of order at most T + 6.
    monomials: Vec<Row>,
    /// The checks of the functions of order at most T + 6 + M.
    checks: Vec<Row>,
}

/// A monomial that a locator is a sum of.
#[derive(Clone)]
struct LocatorTerm {
    values: Row,
    /// Its values times each check of the key equation.
    checked: Vec<Row>,
}

/// The places of a code that are not blank, and what finds codewords by them.
pub struct Unblanked<'a> {
    finder: &'a Finder<'a>,
    blank: Vec<usize>,
    /// T, as the blank places leave it.
    reach: usize,
    locator_terms: Cow<'a, [LocatorTerm]>,
}

impl<'a> Finder<'a> {
    pub fn new(code: &'a Code) -> Finder<'a> {
        let keys: Vec<Key> = (0..=code.reach)
            .map(|reach| Key::new(code, reach))
            .collect();
        let checks = checks(&code.monomials);
        let check_column = |place| Row::from_elements(checks.iter().map(|check| check.get(place)));
        Finder {
            code,
            whole: keys[code.reach].terms(&[]),
            keys,
            check_columns: (0..PLACES).map(check_column).collect(),
            checks,
        }
    }

    /// The finder of a rate's code, made when it is first asked for.
    pub fn of_rate(rate: u64) -> Result<&'static Finder<'static>, Refusal> {
        static FINDERS: [OnceLock<Finder>; RATE_COUNT] = [const { OnceLock::new() }; RATE_COUNT];
        let code = Code::of_rate(rate)?;
        let finder = &FINDERS[number_of_rate(rate)?];
        Ok(finder.get_or_init(|| Finder::new(code)))
    }

    /// The code whose codewords are found.
    pub fn code(&self) -> &Code {
        self.code
    }

    /// All places but the blank ones; none where there is no T with so many blank.
    pub fn unblanked(&self, blank: &[u8]) -> Option<Unblanked<'_>> {
        let reach = self.code.reach_with(blank.len())?;
        let blank: Vec<usize> = blank.iter().map(|place| usize::from(*place)).collect();
        let locator_terms = if blank.is_empty() {
            Cow::Borrowed(&self.whole[..])
        } else {
            Cow::Owned(self.keys[reach].terms(&blank))
        };
        Some(Unblanked {
            finder: self,
            blank,
            reach,
            locator_terms,
        })
    }

    /// The word's differences from a codeword, if they can all lie at the locator's zeros.
    fn errors_at_zeros(&self, word: &Row, locator: &Row) -> Option<Row> {
        let mut span = Span::default();
        for place in (0..PLACES).filter(|place| locator.get(*place) == 0) {
            let dependent = span.add(place, self.check_columns[place]);
            assert_eq!(
                dependent, None,
                "fewer places than the least distance are independent"
            );
        }
        span.express(Row::from_elements(
            self.checks.iter().map(|check| check.dot(word)),
        ))
    }
}

impl Key {
    fn new(code: &Code, reach: usize) -> Key {
        let locator_order = reach + GENUS;
        Key {
            monomials: values_up_to(locator_order),
            checks: checks(&values_up_to(locator_order + code.top)),
        }
    }

    /// The terms of a locator, with the checks that pass over the blank places.
    fn terms(&self, blank: &[usize]) -> Vec<LocatorTerm> {
        let checks = punctured(&self.checks, blank);
        let term = |values: &Row| LocatorTerm {
            values: *values,
            checked: checks.iter().map(|check| check.product(values)).collect(),
        };
        self.monomials.iter().map(term).collect()
    }
}

impl Unblanked<'_> {
    /// The codeword that differs from the word in at most T of these places, if there is one. The
    /// word's symbols at blank places count for nothing.
    pub fn nearest(&self, word: &Row) -> Option<Near> {
        self.nearest_by(word, &self.syndromes(word))
    }

    /// The codewords within T of the words that have, at each of the doubled places, their own symbol or
    /// the second one given; and how many of these words have one.
    pub fn nearest_of_tree(&self, word: &Row, doubled: &[(usize, u8)]) -> (Vec<Near>, u16) {
        let step = |(place, second): &(usize, u8)| Step {
            place: *place,
            second: *second,
            change: second ^ word.get(*place),
            checked: self.at_place(*place),
        };
        let mut tree = Tree {
            places: self,
            steps: doubled.iter().map(step).collect(),
            found: Vec::new(),
            words: 0,
        };
        tree.walk(0, *word, &self.syndromes(word));
        (tree.found, tree.words)
    }

    /// What the checks of N say of the word times each term of a locator.
    fn syndromes(&self, word: &Row) -> Vec<Row> {
        let of_term = |term: &LocatorTerm| {
            Row::from_elements(term.checked.iter().map(|check| check.dot(word)))
        };
        self.locator_terms.iter().map(of_term).collect()
    }

    /// The syndromes of the word that is 1 at one place and zero elsewhere.
    fn at_place(&self, place: usize) -> Vec<Row> {
        let of_term = |term: &LocatorTerm| {
            Row::from_elements(term.checked.iter().map(|check| check.get(place)))
        };
        self.locator_terms.iter().map(of_term).collect()
    }

    /// Whether the word differs from a codeword in at most T of these places.
    fn within(&self, word: &Row, codeword: &Row) -> bool {
        let mut difference = *word;
        difference.add(codeword);
        self.cleared(difference).weight() <= self.reach
    }

    /// The codeword within T of a word with these syndromes.
    fn nearest_by(&self, word: &Row, syndromes: &[Row]) -> Option<Near> {
        let locator = self.cleared(self.locator(syndromes)?);
        let errors = self.finder.errors_at_zeros(word, &locator)?;
        let mut codeword = *word;
        codeword.add(&errors);
        let message = self.finder.code.message(&codeword)?;
        self.within(word, &codeword)
            .then_some(Near { message, codeword })
    }

    /// The values of an E ≠ 0 whose product with a word of these syndromes passes the checks of N.
    fn locator(&self, syndromes: &[Row]) -> Option<Row> {
        let mut span = Span::default();
        for (number, (term, syndromes)) in self.locator_terms.iter().zip(syndromes).enumerate() {
            if let Some(combination) = span.add(number, *syndromes) {
                let mut locator = term.values;
                for (earlier, scale) in self.locator_terms.iter().zip(combination.elements()) {
                    locator.add_scaled(scale, &earlier.values);
                }
                return Some(locator);
            }
        }
        None
    }

    /// The row with zeros at the blank places: there a codeword's symbols are unknown, and never
    /// count "as differing".
    fn cleared(&self, mut row: Row) -> Row {
        for place in &self.blank {
            row.set(*place, 0);
        }
        row
    }
}

/// A doubled place: its second symbol, how that changes the word, and the syndromes of the place.
struct Step {
    place: usize,
    second: u8,
    change: u8,
    checked: Vec<Row>,
}

/// A tree of words, and what is found of it so far.
struct Tree<'a> {
    places: &'a Unblanked<'a>,
    steps: Vec<Step>,
    /// Each codeword once.
    found: Vec<Near>,
    /// The words that have one of them within T.
    words: u16,
}

impl Tree<'_> {
    /// Doubles the word at each step from this one on.
    fn walk(&mut self, at: usize, word: Row, syndromes: &[Row]) {
        let Some(step) = self.steps.get(at) else {
            return self.try_word(&word, syndromes);
        };
        let mut second = word;
        second.set(step.place, step.second);
        let mut changed = syndromes.to_vec();
        for (row, checked) in changed.iter_mut().zip(&step.checked) {
            row.add_scaled(step.change, checked);
        }
        self.walk(at + 1, word, syndromes);
        self.walk(at + 1, second, &changed);
    }

    fn try_word(&mut self, word: &Row, syndromes: &[Row]) {
        let known = |near: &Near| self.places.within(word, &near.codeword);
        if !self.found.iter().any(known) {
            let Some(near) = self.places.nearest_by(word, syndromes) else {
                return;
            };
            self.found.push(near);
        }
        self.words += 1;
    }
}

/// The values of the monomials of order at most `top`.
fn values_up_to(top: usize) -> Vec<Row> {
    monomials(top)
        .iter()
        .map(|monomial| monomial.values())
        .collect()
}

/// The parity checks: a basis of the rows whose product with each of the words sums to zero. Each
/// place whose column of symbols depends on the columns before it gives one.
fn checks(words: &[Row]) -> Vec<Row> {
    let mut span = Span::default();
    let dependence = |place: usize| {
        let column = Row::from_elements(words.iter().map(|word| word.get(place)));
        let mut check = span.add(place, column)?;
        check.set(place, 1);
        Some(check)
    };
    (0..LANES).filter_map(dependence).collect()
}

/// The combinations of the checks that are zero at the blank places: at each of these one check is
/// taken out, and its multiples off the others.
fn punctured(checks: &[Row], blank: &[usize]) -> Vec<Row> {
    let mut checks = checks.to_vec();
    for place in blank {
        let Some(at) = checks.iter().position(|check| check.get(*place) != 0) else {
            continue;
        };
        let taken = checks.swap_remove(at);
        let taken = taken.scaled(field::inverse(taken.get(*place)));
        for check in &mut checks {
            check.add_scaled(check.get(*place), &taken);
        }
    }
    checks
}

#[cfg(test)]
mod tests {
    use super::*;
    use crate::code::rates;
    use crate::frames::some_places;
    use crate::random::Random;

    const RATES: [u64; 2] = [39, 49];

    fn random_message(code: &Code, random: &mut Random) -> Vec<u8> {
        (0..code.symbols).map(|_| random.symbol()).collect()
    }

    /// Any symbols at the blank places, and wrong ones at so many of the others.
    fn damaged(word: &Row, blank: &[u8], wrong: usize, random: &mut Random) -> Row {
        let mut damaged = *word;
        for place in blank {
            damaged.set(usize::from(*place), random.symbol());
        }
        let others = (0..PLACES).filter(|place| !blank.contains(&(*place as u8)));
        for place in random.shuffled(others).into_iter().take(wrong) {
            damaged.set(place, random.other_symbol(word.get(place)));
        }
        damaged
    }

    /// How many places that are not blank the words differ in.
    fn distance(a: &Row, b: &Row, blank: &[u8]) -> usize {
        let mut difference = *a;
        difference.add(b);
        for place in blank {
            difference.set(usize::from(*place), 0);
        }
        difference.weight()
    }

    #[test]
    fn checks_are_as_many_as_the_code_lacks_and_pass_its_words() {
        for rate in rates() {
            let code = Code::of_rate(rate).unwrap();
            let checks = checks(&code.monomials);
            assert_eq!(checks.len(), PLACES - code.symbols);
            for check in &checks {
                assert!(code.monomials.iter().all(|word| check.dot(word) == 0));
            }
        }
    }

    /// The checks of a code with the symbols at some places left out: as many as the length that is
    /// left exceeds the dimension.
    #[test]
    fn punctured_checks_are_zero_at_blank_places_and_pass_what_is_there() {
        let mut random = Random::new(14, 0);
        for rate in RATES {
            let code = Code::of_rate(rate).unwrap();
            let checks = checks(&code.monomials);
            for blanks in (0..=code.blank_limit()).cycle().take(60) {
                let blank = some_places(blanks, &mut random);
                let places: Vec<usize> = blank.iter().map(|place| usize::from(*place)).collect();
                let punctured = punctured(&checks, &places);
                assert_eq!(punctured.len(), PLACES - code.symbols - blanks);
                let mut span = Span::default();
                for (number, check) in punctured.iter().enumerate() {
                    assert!(places.iter().all(|place| check.get(*place) == 0));
                    assert_eq!(span.add(number, *check), None);
                    for word in &code.monomials {
                        let any = damaged(word, &blank, 0, &mut random);
                        assert_eq!(check.dot(&any), 0);
                    }
                }
            }
        }
    }

    /// With each number of blank places, whatever stands there.
    #[test]
    fn up_to_t_errors_are_always_repaired() {
        let mut random = Random::new(10, 0);
        for rate in rates() {
            let code = Code::of_rate(rate).unwrap();
            let finder = Finder::of_rate(rate).unwrap();
            for blanks in 0..=code.blank_limit() {
                let reach = code.reach_with(blanks).unwrap();
                let rounds = match (RATES.contains(&rate), blanks) {
                    (true, 0) => 4000,
                    (true, _) => 500,
                    _ => 2 * (reach + 1),
                };
                for round in 0..rounds {
                    let message = random_message(code, &mut random);
                    let codeword = code.codeword(&message);
                    let blank = some_places(blanks, &mut random);
                    let word = damaged(&codeword, &blank, round % (reach + 1), &mut random);
                    let unblanked = finder.unblanked(&blank).unwrap();
                    assert_eq!(unblanked.nearest(&word), Some(Near { message, codeword }));
                }
            }
        }
    }

    /// Thirteen consecutive places, or all those of three x and one more, are as good as any others.
    #[test]
    fn thirteen_blank_places_and_none_wrong_are_repaired_at_rate_39() {
        let mut random = Random::new(15, 0);
        let code = Code::of_rate(39).unwrap();
        let finder = Finder::of_rate(39).unwrap();
        for first in 0..PLACES as u8 {
            let mut blank: Vec<u8> = (first..first + 13).map(|place| place % 64).collect();
            blank.sort_unstable();
            let message = random_message(code, &mut random);
            let codeword = code.codeword(&message);
            let word = damaged(&codeword, &blank, 0, &mut random);
            let unblanked = finder.unblanked(&blank).unwrap();
            assert_eq!(unblanked.nearest(&word), Some(Near { message, codeword }));
            let word = damaged(&codeword, &blank, 1, &mut random);
            assert_eq!(unblanked.nearest(&word), None);
        }
    }

    #[test]
    fn too_many_blank_places_leave_no_t() {
        let of_two = [(39, 13), (49, 3)];
        for (rate, limit) in rates().zip((0..=46).rev()).chain(of_two) {
            let finder = Finder::of_rate(rate).unwrap();
            let all: Vec<u8> = (0..PLACES as u8).collect();
            for blanks in 0..=PLACES {
                let unblanked = finder.unblanked(&all[..blanks]);
                assert_eq!(unblanked.is_some(), blanks <= limit);
            }
        }
    }

    /// T + 1 errors or more leave none near, or another codeword than the one sent.
    #[test]
    fn what_is_found_is_a_codeword_within_t() {
        let mut random = Random::new(11, 0);
        for rate in rates() {
            let code = Code::of_rate(rate).unwrap();
            let finder = Finder::of_rate(rate).unwrap();
            let rounds = if RATES.contains(&rate) { 4000 } else { 400 };
            for round in 0..rounds {
                let codeword = code.codeword(&random_message(code, &mut random));
                let blanks = round / 8 % (code.blank_limit() + 1);
                let blank = some_places(blanks, &mut random);
                let reach = code.reach_with(blanks).unwrap();
                let word = damaged(&codeword, &blank, reach + 1 + round % 8, &mut random);
                if let Some(near) = finder.unblanked(&blank).unwrap().nearest(&word) {
                    assert_ne!(near.codeword, codeword);
                    assert_eq!(near.codeword, code.codeword(&near.message));
                    assert!(distance(&near.codeword, &word, &blank) <= reach);
                }
            }
        }
    }

    /// Two codewords differ in 64 − M places at least: where between T + 1 and 63 − M − T symbols of one
    /// are wrong, no other is within T. At rate 52 these are 1 to 6.
    #[test]
    fn too_many_errors_for_t_and_too_few_for_another_codeword_leave_none_near() {
        let mut random = Random::new(16, 0);
        for rate in rates() {
            let code = Code::of_rate(rate).unwrap();
            let unblanked = Finder::of_rate(rate).unwrap().unblanked(&[]).unwrap();
            let most = PLACES - 1 - code.top - code.reach;
            assert_eq!(most - code.reach, 6 + rate as usize % 2);
            for wrong in code.reach + 1..=most {
                for _ in 0..20 {
                    let codeword = code.codeword(&random_message(code, &mut random));
                    let word = damaged(&codeword, &[], wrong, &mut random);
                    assert_eq!(unblanked.nearest(&word), None, "{wrong} at rate {rate}");
                }
            }
        }
    }

    /// The words that differ from this one in at most T places, of those that are not blank.
    fn within(word: &Row, blank: &[u8], reach: usize) -> Vec<Row> {
        let change = |words: Vec<Row>, places: &[u8]| -> Vec<Row> {
            let changes = places
                .iter()
                .flat_map(|p| (0..16).map(move |s| (usize::from(*p), s)));
            let changes: Vec<(usize, u8)> = changes.collect();
            let changed = words.iter().flat_map(|word| {
                changes.iter().map(move |(place, symbol)| {
                    let mut changed = *word;
                    changed.set(*place, *symbol);
                    changed
                })
            });
            changed.collect()
        };
        let filled = blank
            .iter()
            .fold(vec![*word], |words, place| change(words, &[*place]));
        let others: Vec<u8> = (0..PLACES as u8)
            .filter(|place| !blank.contains(place))
            .collect();
        (0..reach).fold(filled, |words, _| change(words, &others))
    }

    /// At rate 49 a near codeword differs in one place at most, and in any blank ones: 16,000 words
    /// are tried at most.
    #[test]
    fn rate_49_agrees_with_trying_every_change() {
        let mut random = Random::new(12, 0);
        let code = Code::of_rate(49).unwrap();
        let finder = Finder::of_rate(49).unwrap();
        for blanks in 0..=3 {
            let reach = code.reach_with(blanks).unwrap();
            let mut found = [0; 2];
            for round in 0..[200, 15, 100, 20][blanks] {
                let codeword = code.codeword(&random_message(code, &mut random));
                let blank = some_places(blanks, &mut random);
                let wrong = [0, 1, 2, 3, 9][round % 5];
                let word = damaged(&codeword, &blank, wrong, &mut random);
                let mut near = within(&word, &blank, reach);
                near.retain(|changed| code.message(changed).is_some());
                let answer = finder.unblanked(&blank).unwrap().nearest(&word);
                let answer = answer.map(|near| near.codeword);
                assert_eq!(answer, near.first().copied());
                assert!(near.iter().all(|changed| Some(*changed) == answer));
                found[usize::from(answer.is_some())] += 1;
            }
            assert!(found[0] >= 4 && found[1] >= 3, "{found:?}");
        }
    }

    /// Codes small enough to try all messages, with their own large T and with any number of blank
    /// places.
    #[test]
    fn small_codes_agree_with_trying_every_message() {
        let mut random = Random::new(13, 0);
        for top in [0, 4, 5, 8] {
            let code = Code::new(top);
            let finder = Finder::new(&code);
            let count = 1 << (4 * code.symbols);
            let all: Vec<Row> = (0..count)
                .map(|number: u32| {
                    let message: Vec<u8> = (0..code.symbols)
                        .map(|symbol| (number >> (4 * symbol) & 15) as u8)
                        .collect();
                    code.codeword(&message)
                })
                .collect();
            let mut found = [0; 2];
            for round in 0..180 {
                let sent = all[random.below(all.len())];
                let limit = code.blank_limit();
                let blanks = match round {
                    0..60 => 0,
                    60..65 => limit,
                    _ => random.between(1, limit),
                };
                let blank = some_places(blanks, &mut random);
                let reach = code.reach_with(blanks).unwrap();
                let errors = (reach + 3).saturating_sub(round % 7);
                let word = damaged(&sent, &blank, errors, &mut random);
                let near: Vec<&Row> = all
                    .iter()
                    .filter(|c| distance(c, &word, &blank) <= reach)
                    .collect();
                assert!(near.len() <= 1);
                let answer = finder.unblanked(&blank).unwrap().nearest(&word);
                let answer = answer.map(|near| near.codeword);
                assert_eq!(answer.as_ref(), near.first().copied());
                found[usize::from(answer.is_some())] += 1;
            }
            assert!(found[0] >= 60 && found[1] >= 90, "{found:?}");
        }
    }
}
