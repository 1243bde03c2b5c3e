//! Numbers for people.

/// A number of things: 1 film, 2 films.
pub fn counted(number: u64, word: &str) -> String {
    format!("{} {word}{}", grouped(number), if number == 1 { "" } else { "s" })
}

/// A number with a comma between thousands.
pub fn grouped(number: u64) -> String {
    let digits = number.to_string();
    let mut grouped = String::with_capacity(digits.len() + digits.len() / 3);
    for (at, digit) in digits.chars().enumerate() {
        if at > 0 && (digits.len() - at).is_multiple_of(3) {
            grouped.push(',');
        }
        grouped.push(digit);
    }
    grouped
}

/// Of keys, films and tenants in a row no more than these are shown to a person; `--json` has all.
pub const MOST: usize = 12;

/// The first of many things, as many as a person is shown, and how many there are.
#[derive(Debug, PartialEq)]
pub struct Few<T> {
    pub shown: Vec<T>,
    pub all: u64,
}

impl<T> Few<T> {
    /// Of things that are handed over one by one.
    pub fn gather<E>(each: impl FnOnce(&mut dyn FnMut(T) -> Result<(), E>) -> Result<(), E>) -> Result<Few<T>, E> {
        let mut few = Few { shown: Vec::new(), all: 0 };
        each(&mut |thing| {
            few.add(thing);
            Ok(())
        })?;
        Ok(few)
    }

    fn add(&mut self, thing: T) {
        if self.shown.len() < MOST {
            self.shown.push(thing);
        }
        self.all += 1;
    }

    /// How many are not shown.
    pub fn more(&self) -> u64 {
        self.all - self.shown.len() as u64
    }

    /// The same of each thing.
    pub fn map<U>(self, of: impl FnMut(T) -> U) -> Few<U> {
        Few { shown: self.shown.into_iter().map(of).collect(), all: self.all }
    }
}

impl<T> FromIterator<T> for Few<T> {
    fn from_iter<I: IntoIterator<Item = T>>(things: I) -> Few<T> {
        let mut few = Few { shown: Vec::new(), all: 0 };
        things.into_iter().for_each(|thing| few.add(thing));
        few
    }
}

/// Words in a row: 3, 7; with 12 of them shown: 3, 7, .. and 2 more.
pub fn listed(words: &Few<String>) -> String {
    let more = if words.more() > 0 { format!(" and {} more", grouped(words.more())) } else { String::new() };
    format!("{}{more}", words.shown.join(", "))
}

/// Tenants by their numbers: tenant 3; tenants 3, 7.
pub fn tenants(numbers: Few<u64>) -> String {
    let word = if numbers.all == 1 { "tenant" } else { "tenants" };
    format!("{word} {}", listed(&numbers.map(|number| number.to_string())))
}

#[cfg(test)]
mod tests {
    use super::{Few, counted, grouped, tenants};

    #[test]
    fn numbers_for_people() {
        let shown = [0, 12, 999, 1000, 123_456, 1_234_567].map(grouped);
        assert_eq!(shown, ["0", "12", "999", "1,000", "123,456", "1,234,567"]);
        assert_eq!(counted(1, "film"), "1 film");
        assert_eq!(counted(0, "film"), "0 films");
    }

    #[test]
    fn tenants_by_their_numbers() {
        assert_eq!(tenants(Few::from_iter([3])), "tenant 3");
        assert_eq!(tenants(Few::from_iter([3, 1007])), "tenants 3, 1007");
        let many = "tenants 1, 2, 3, 4, 5, 6, 7, 8, 9, 10, 11, 12 and 2 more";
        assert_eq!(tenants((1..=14).collect()), many);
        let gathered = Few::gather(|take| (1..=14).try_for_each(take));
        assert_eq!(gathered, Ok::<_, ()>((1..=14).collect()));
    }
}
