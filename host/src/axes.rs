//! Which axis of a header is refused, and what is there, in words. No rule is said here: the proved call is asked about each axis alone, beside two
//! of which nothing is wrong, and about each factor alone.
use std::collections::BTreeSet;

pub const LENGTH: u32 = 3;
const FACTOR: u32 = 4;
const PRODUCT: u32 = 5;

/// An axis as it was given: its length, and its factors with the bytes that the call gets for them.
pub struct Axis {
    pub name: String,
    pub length: String,
    pub factors: Vec<(String, u8)>,
}

impl Axis {
    pub fn new(name: String, length: u16, list: &[u8]) -> Axis {
        Axis { name, length: length.to_string(), factors: list.iter().map(|&factor| (factor.to_string(), factor)).collect() }
    }

    /// What is refused with a number, if it is something of an axis. `number_of` asks the call about a length of this axis with a list.
    pub fn fault(&self, number: u32, number_of: impl Fn(u32, &[u8]) -> u32) -> Option<String> {
        let list: Vec<u8> = self.factors.iter().map(|&(_, factor)| factor).collect();
        let length = self.length.parse().unwrap_or(u32::MAX);
        if !matches!(number, LENGTH | FACTOR | PRODUCT) || number_of(length, &list) != number {
            return None;
        }
        Some(match number {
            LENGTH => format!("{} is {}{}", self.name, self.length, nearest(length, |length| number_of(length, &[]) != LENGTH)),
            FACTOR => self.factors_where(|factor| number_of(length, &[factor]) == FACTOR),
            _ => self.product(),
        })
    }

    fn factors_where(&self, refused: impl Fn(u8) -> bool) -> String {
        let found: BTreeSet<(u8, &str)> =
            self.factors.iter().filter(|(_, factor)| refused(*factor)).map(|(shown, factor)| (*factor, shown.as_str())).collect();
        let found: Vec<&str> = found.into_iter().map(|(_, shown)| shown).collect();
        format!("factor{} {} in the list of {}", if found.len() > 1 { "s" } else { "" }, found.join(", "), self.name)
    }

    fn product(&self) -> String {
        let product = self.factors.iter().try_fold(1u64, |product, &(_, factor)| product.checked_mul(u64::from(factor)));
        let product = product.map_or_else(|| format!("above {}", u64::MAX), |product| product.to_string());
        let half = self.length.parse::<u32>().unwrap_or(0) / 2;
        format!("the product of the list of {} is {product}, not {half}", self.name)
    }
}

/// The admitted lengths next to one that is not, below and above, in words.
pub fn nearest(length: u32, is_admitted: impl Fn(u32) -> bool) -> String {
    let longest = u32::from(u16::MAX);
    let below = (0..length.min(longest + 1)).rev().find(|&length| is_admitted(length));
    let above = (length.saturating_add(1)..=longest).find(|&length| is_admitted(length));
    match (below, above) {
        (Some(below), Some(above)) => format!(" (nearest admitted: {below}, {above})"),
        (Some(next), None) | (None, Some(next)) => format!(" (nearest admitted: {next})"),
        (None, None) => String::new(),
    }
}

#[cfg(test)]
mod tests {
    use super::nearest;

    #[test]
    fn a_length_is_next_to_those_that_are_admitted() {
        let even_divisor = |length: u32| length > 0 && length % 2 == 0 && 2880 % length == 0;
        for (length, said) in [(0, "2"), (7, "6, 8"), (14, "12, 16"), (1441, "1440, 2880"), (2881, "2880"), (u32::MAX, "2880")] {
            assert_eq!(nearest(length, even_divisor), format!(" (nearest admitted: {said})"));
        }
        assert_eq!(nearest(5, |_| false), "");
    }
}
