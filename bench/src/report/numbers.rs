//! Numbers as the documentation writes them.

/// Nanoseconds: a tenth below ten, and commas between thousands.
pub fn nanoseconds(time: f64) -> String {
    if time < 9.95 {
        format!("{time:.1}")
    } else {
        thousands(time.round() as u64)
    }
}

/// A ratio: hundredths below ten, and more digits where there would be none.
pub fn ratio(ratio: f64) -> String {
    if ratio < 0.095 {
        format!("{ratio:.4}")
    } else if ratio < 9.95 {
        format!("{ratio:.2}")
    } else {
        format!("{ratio:.0}")
    }
}

/// A number with commas between thousands.
pub fn thousands(number: u64) -> String {
    let digits = number.to_string();
    let mut written = String::new();
    for (index, digit) in digits.char_indices() {
        if index > 0 && (digits.len() - index).is_multiple_of(3) {
            written.push(',');
        }
        written.push(digit);
    }
    written
}

#[cfg(test)]
mod tests {
    use super::*;

    #[test]
    fn commas_stand_between_thousands() {
        assert_eq!(thousands(0), "0");
        assert_eq!(thousands(999), "999");
        assert_eq!(thousands(4096), "4,096");
        assert_eq!(thousands(1_234_567), "1,234,567");
    }

    #[test]
    fn small_numbers_have_decimals() {
        assert_eq!(nanoseconds(6.24), "6.2");
        assert_eq!(nanoseconds(34_427.4), "34,427");
        assert_eq!(ratio(0.0021), "0.0021");
        assert_eq!(ratio(0.984), "0.98");
        assert_eq!(ratio(31.2), "31");
    }
}
