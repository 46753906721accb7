//! The text of numbers and lines in a table.

/// A column of so many places: text begins at its left, numbers end at its right.
#[derive(Clone, Copy)]
pub enum Column {
    Text(usize),
    Number(usize),
}

/// A line of a table, two blanks between columns; a cell that is too long for its column pushes the others on.
pub fn line<T: AsRef<str>>(columns: &[Column], cells: &[T]) -> String {
    let filled = columns.iter().zip(cells).map(|(column, cell)| {
        let cell = cell.as_ref();
        match *column {
            Column::Text(width) => format!("{cell:<width$}"),
            Column::Number(width) => format!("{cell:>width$}"),
        }
    });
    filled.collect::<Vec<_>>().join("  ").trim_end().to_string()
}

/// A time or a ratio, with more decimals the smaller it is.
pub fn number(number: f64) -> String {
    let decimals = match number {
        _ if number < 0.1 => 4,
        _ if number < 10.0 => 3,
        _ if number < 100.0 => 2,
        _ => 1,
    };
    format!("{number:.decimals$}")
}

/// A time or a ratio, or a dash where there is none.
pub fn number_or_dash(known: Option<f64>) -> String {
    known.map_or("-".to_string(), number)
}

/// A whole number with a comma after each three digits.
pub fn whole(count: usize) -> String {
    if count < 1000 {
        return count.to_string();
    }
    format!("{},{:03}", whole(count / 1000), count % 1000)
}

/// So many bytes, in the largest unit of which there is one.
pub fn bytes(count: usize) -> String {
    const KIB: f64 = 1024.0;
    let bytes = count as f64;
    if bytes < KIB {
        format!("{count} B")
    } else if bytes < KIB * KIB {
        format!("{:.1} KiB", bytes / KIB)
    } else {
        format!("{:.1} MiB", bytes / KIB / KIB)
    }
}

#[cfg(test)]
mod tests {
    use super::*;

    #[test]
    fn small_numbers_have_more_decimals() {
        for (given, text) in [
            (0.0, "0.0000"),
            (0.01234, "0.0123"),
            (0.1, "0.100"),
            (1.18749, "1.187"),
            (12.3456, "12.35"),
            (1234.56, "1234.6"),
        ] {
            assert_eq!(number(given), text);
        }
        assert_eq!(number_or_dash(None), "-");
        assert_eq!(number_or_dash(Some(0.5)), "0.500");
    }

    #[test]
    fn whole_numbers_have_commas() {
        for (given, text) in [
            (0, "0"),
            (999, "999"),
            (4096, "4,096"),
            (1_048_576, "1,048,576"),
            (1_000_001, "1,000,001"),
        ] {
            assert_eq!(whole(given), text);
        }
    }

    #[test]
    fn bytes_have_the_largest_unit() {
        for (given, text) in [
            (1023, "1023 B"),
            (1024, "1.0 KiB"),
            (2560, "2.5 KiB"),
            (1 << 20, "1.0 MiB"),
            (64 << 20, "64.0 MiB"),
        ] {
            assert_eq!(bytes(given), text);
        }
    }

    #[test]
    fn text_begins_left_and_numbers_end_right() {
        let columns = [Column::Text(5), Column::Number(4), Column::Text(3)];
        assert_eq!(line(&columns, &["ab", "1.5", ""]), "ab      1.5");
        assert_eq!(line(&columns, &["abcdefg", "1", "x"]), "abcdefg     1  x");
    }
}
