//! Numbers as text: a decimal, `inf`, `-inf`, `nan`, or the 64 bits as `0x` and 16 hexadecimal digits. A number is kept as its bits, so that a NaN keeps
//! its sign and payload.

/// The NaN that `nan` stands for.
const NAN: u64 = 0x7ff8_0000_0000_0000;

/// What is written between the thousands of a number in one country or another.
const SEPARATORS: [char; 6] = ['\'', '’', '_', '\u{a0}', '\u{2009}', '\u{202f}'];

/// A field of a text as messages show it. What cannot be seen is escaped, and a long field is cut.
pub fn quoted(field: &str) -> String {
    match field.char_indices().nth(40) {
        Some((end, _)) => format!("{:?} ..", &field[..end]),
        None => format!("{field:?}"),
    }
}

fn digits(part: &str) -> bool {
    part.bytes().all(|byte| byte.is_ascii_digit())
}

fn without_sign(part: &str) -> &str {
    part.strip_prefix(['+', '-']).unwrap_or(part)
}

/// Digits with or without a point and an exponent. Rust's own parser takes words such as `Infinity`, too.
fn is_decimal(field: &str) -> bool {
    let (mantissa, exponent) = without_sign(field).split_once(['e', 'E']).unwrap_or((without_sign(field), "0"));
    let (whole, fraction) = mantissa.split_once('.').unwrap_or((mantissa, ""));
    let exponent = without_sign(exponent);
    digits(whole) && digits(fraction) && whole.len() + fraction.len() > 0 && digits(exponent) && !exponent.is_empty()
}

fn decimal(field: &str) -> Result<u64, String> {
    let x: f64 = field.parse().map_err(|_| no_number(field))?;
    if x.is_infinite() {
        return Err(format!("{} is beyond the largest number, {:?}; infinity is inf", quoted(field), f64::MAX));
    }
    Ok(x.to_bits())
}

fn bits(field: &str, hexadecimal: &str) -> Result<u64, String> {
    if hexadecimal.len() != 16 || !hexadecimal.bytes().all(|byte| byte.is_ascii_hexdigit()) {
        return Err(format!("{} is no number: after 0x exactly 16 hexadecimal digits are wanted", quoted(field)));
    }
    u64::from_str_radix(hexadecimal, 16).map_err(|_| no_number(field))
}

fn no_number(field: &str) -> String {
    let word = without_sign(field).to_ascii_lowercase();
    let hint = if field.contains(',') {
        "write decimals with a point, not a comma, and thousands without a separator"
    } else if field.contains(SEPARATORS) {
        "write thousands without a separator"
    } else if field.contains(['−', '–']) {
        "write the sign of a negative number as -"
    } else if ["nan", "inf", "infinity"].contains(&&word[..]) {
        "write nan, inf or -inf"
    } else {
        "wanted is a decimal such as -1.5 or 2e-3, inf, -inf, nan, or 0x and 16 hexadecimal digits"
    };
    format!("{} is no number: {hint}", quoted(field))
}

/// The bits of the number that a field names, or what is wrong with the field.
pub fn read(field: &str) -> Result<u64, String> {
    match field {
        "inf" => Ok(f64::INFINITY.to_bits()),
        "-inf" => Ok(f64::NEG_INFINITY.to_bits()),
        "nan" => Ok(NAN),
        _ => match field.strip_prefix("0x") {
            Some(hexadecimal) => bits(field, hexadecimal),
            None if is_decimal(field) => decimal(field),
            None => Err(no_number(field)),
        },
    }
}

/// The shortest text that `read` takes for the same bits.
pub fn print(bits: u64) -> String {
    let x = f64::from_bits(bits);
    if x.is_nan() {
        return if bits == NAN { "nan".to_string() } else { format!("{bits:#018x}") };
    }
    let shortest = format!("{x:?}");
    shortest.strip_suffix(".0").unwrap_or(&shortest).to_string()
}

/// Numbers in rows of so many columns, which are aligned on the right. Each row starts with `margin`.
pub fn rows(numbers: &[u64], columns: usize, margin: &str) -> String {
    let fields: Vec<String> = numbers.iter().map(|bits| print(*bits)).collect();
    let width = |column: usize| fields.iter().skip(column).step_by(columns).map(String::len).max().unwrap_or(0);
    let widths: Vec<usize> = (0..columns).map(width).collect();
    let mut text = String::new();
    for row in fields.chunks(columns) {
        let row: Vec<String> = row.iter().zip(&widths).map(|(field, width)| format!("{field:>width$}")).collect();
        text.push_str(&format!("{margin}{}\n", row.join("  ")));
    }
    text
}
