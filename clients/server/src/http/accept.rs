//! Which of two media types a client would rather have (RFC 9110, section 12.5.1).

use super::fields::{elements, is_token, Rest};

/// A media range in small letters, and how much it is wanted, from 0 to 1000.
type Range = (String, u16);

/// Whether the value of `Accept` names a media type, and wants it no less than another one.
pub fn names(accept: &str, wanted: &str, other: &str) -> bool {
    let ranges: Vec<Range> = elements(accept).into_iter().filter_map(range_in).collect();
    let weight = weight_of(&ranges, wanted);
    ranges.iter().any(|(range, _)| range == wanted) && weight > 0 && weight >= weight_of(&ranges, other)
}

/// How much a media type is wanted: what names it tells more than what names its kind or all.
fn weight_of(ranges: &[Range], wanted: &str) -> u16 {
    let kind = wanted.split_once('/').map_or("", |(kind, _)| kind);
    let of = |known: &str| ranges.iter().filter(|(range, _)| range == known).map(|(_, weight)| *weight).max();
    of(wanted).or_else(|| of(&format!("{kind}/*"))).or_else(|| of("*/*")).unwrap_or(0)
}

/// A range; none if it has a wrong form, and is passed over.
fn range_in(element: &str) -> Option<Range> {
    let mut rest = Rest::of(element);
    let kind = rest.some(is_token)?;
    let kind = format!("{kind}/{}", rest.pass('/').then(|| ()).and_then(|()| rest.some(is_token))?);
    let parameters = rest.parameters(is_token).filter(|_| rest.is_empty())?;
    let weight = parameters.iter().find(|(name, _)| name == "q").map_or(Some(1000), |(_, text)| weight_in(text))?;
    Some((kind.to_ascii_lowercase(), weight))
}

/// A number from 0 to 1 with up to three digits after the point, in thousandths.
fn weight_in(text: &str) -> Option<u16> {
    let (whole, digits) = text.split_once('.').unwrap_or((text, ""));
    let is_number = digits.len() <= 3 && digits.bytes().all(|digit| digit.is_ascii_digit());
    let thousandths = format!("{digits:0<3}").parse().ok().filter(|_| is_number)?;
    match whole {
        "0" => Some(thousandths),
        "1" if thousandths == 0 => Some(1000),
        _ => None,
    }
}

#[cfg(test)]
mod tests {
    use super::{names, weight_in};

    #[test]
    fn a_type_is_sent_that_is_wanted_no_less() {
        let lines = |accept: &str| names(accept, "application/x-ndjson", "application/json");
        for accept in [
            "application/x-ndjson",
            "Application/X-NDJSON; charset=\"a,b\"",
            "application/json, application/x-ndjson",
            "application/json;q=0.5, , application/x-ndjson;q=0.500",
            "*/*;q=0.1, application/x-ndjson;q=0.2",
            "application/json;q=2, application/x-ndjson;q=0.1",
        ] {
            assert!(lines(accept), "{accept}");
        }
        for accept in [
            "",
            "*/*",
            "application/*",
            "application/json, application/x-ndjson;q=0",
            "application/x-ndjson;Q=0.000",
            "application/json, application/x-ndjson;q=0.9",
            "*/*, application/x-ndjson;q=0.9",
            "application/x-ndjson-more",
            "text/plain;x=\"application/x-ndjson\"",
            "application/x-ndjson x",
        ] {
            assert!(!lines(accept), "{accept}");
        }
    }

    #[test]
    fn a_weight_has_three_digits() {
        let told = ["0", "1", "0.", "0.5", "0.125", "1.000"].map(weight_in);
        assert_eq!(told, [Some(0), Some(1000), Some(0), Some(500), Some(125), Some(1000)]);
        for text in ["", "1.1", "2", "0.1234", "-0", ".5", "0.x", "00"] {
            assert_eq!(weight_in(text), None, "{text}");
        }
    }
}
