//! Names spelled in digits or in primes, for the cases.

/// `X` and an index in digits.
pub fn digits(index: usize) -> String {
    format!("X{index}")
}

/// `X` and an index in primes.
pub fn primes(index: usize) -> String {
    format!("X{}", "'".repeat(index))
}

/// A text whose names are in digits, with each name, of an index, spelled anew.
pub fn respelled(text: &[u8], mut name: impl FnMut(usize) -> String) -> Vec<u8> {
    let mut parts = text.split(|&b| b == b'X');
    let mut found = parts.next().unwrap_or_default().to_vec();
    for part in parts {
        let (index, rest) = part.split_at(part.iter().take_while(|b| b.is_ascii_digit()).count());
        let index = String::from_utf8_lossy(index).parse().expect("an index in digits");
        found.extend(name(index).bytes());
        found.extend(rest);
    }
    found
}

/// A text whose names are in digits, with each choice of digits or primes at each name; the first is the text itself.
pub fn every_choice(text: &[u8]) -> impl Iterator<Item = Vec<u8>> + '_ {
    let names = text.iter().filter(|&&b| b == b'X').count();
    (0..1_usize << names).map(|choice| {
        let mut left = choice;
        respelled(text, |index| {
            let in_primes = left % 2 == 1;
            left /= 2;
            if in_primes {
                primes(index)
            } else {
                digits(index)
            }
        })
    })
}
