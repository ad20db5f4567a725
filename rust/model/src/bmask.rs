//! What a BMASK line says: `:sid BMASK time name b list`.

use crate::bans::{self, Masks};
use crate::line::Message;
use crate::sjoin::read_head;
use crate::Refusal;

/// A BMASK that is good by itself.
#[derive(Clone, Debug, PartialEq, Eq)]
pub struct Bmask<'a> {
    /// The line's time.
    pub time: u32,
    /// The channel's name.
    pub name: &'a [u8],
    /// The masks in the order of the line, equal ones included.
    pub masks: Masks,
}

/// Reads the message of a BMASK.
pub fn read_bmask<'a>(message: &Message<'a>) -> Result<Bmask<'a>, Refusal> {
    let [_, _, kind, list] = message.params[..] else {
        return Err(Refusal::ParamCount);
    };
    let (time, name) = read_head(message)?;
    if kind != b"b" {
        return Err(Refusal::BadMasks);
    }
    let masks = read_masks(list).ok_or(Refusal::BadMasks)?;
    Ok(Bmask { time, name, masks })
}

/// Masks parted as SJOIN's list is: by one or more SPACEs, at least one mask, SPACEs at either end
/// passed over.
fn read_masks(list: &[u8]) -> Option<Masks> {
    let masks: Masks =
        list.split(|&b| b == b' ').filter(|m| !m.is_empty()).map(<[u8]>::to_vec).collect();
    (!masks.is_empty() && masks.iter().all(|m| bans::is_mask(m))).then_some(masks)
}

#[cfg(test)]
mod tests {
    use super::*;
    use crate::line;

    /// Reads the parameters after `:1AB BMASK`, and answers the masks.
    fn masks(params: &str) -> Result<Vec<String>, u8> {
        let line = format!(":1AB BMASK {params}\r\n");
        let message = line::read(line.as_bytes()).unwrap();
        let text = |mask: &Vec<u8>| String::from_utf8(mask.clone()).unwrap();
        let read = read_bmask(&message).map_err(Refusal::number)?;
        Ok(read.masks.iter().map(text).collect())
    }

    #[test]
    fn masks_as_they_stand() {
        assert_eq!(masks("1 #a b x").unwrap(), ["x"]);
        assert_eq!(masks("1 #a b :  b   A,: a\x07 ").unwrap(), ["b", "A,:", "a\x07"]);
        assert_eq!(masks("1 #a b ::x").unwrap(), [":x"]);
        assert_eq!(masks(&format!("1 #a b {}", "x".repeat(100))).unwrap(), ["x".repeat(100)]);
        assert_eq!(masks(&format!("1 #a b :{}", "x ".repeat(40))).unwrap().len(), 40);
    }

    #[test]
    fn numbers_in_order() {
        let long = "x".repeat(101);
        for (params, number) in [
            ("1 #a b", 12),
            ("1 #a b x y", 12),
            ("00 a c :", 14),
            ("0 a c :", 15),
            ("1 a c :", 16),
            ("1 #a c x", 26),
            ("1 #a B x", 26),
            ("1 #a bb x", 26),
            ("1 #a +b x", 26),
            ("1 #a b :", 26),
            ("1 #a b :   ", 26),
            (&format!("1 #a b {long}"), 26),
            (&format!("1 #a b :x {long} y"), 26),
        ] {
            assert_eq!(masks(params), Err(number), "{params}");
        }
    }

    #[test]
    fn the_source_is_a_server() {
        for line in ["BMASK 0 #a b x", ":1ABAAAAAA BMASK 0 #a b x"] {
            let line = format!("{line}\r\n");
            let message = line::read(line.as_bytes()).unwrap();
            assert_eq!(read_bmask(&message), Err(Refusal::BadSource));
        }
    }
}
