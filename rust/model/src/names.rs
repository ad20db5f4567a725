//! Names and ids.

/// The most bytes of a channel name: '#' and 49 further ones.
pub const NAME: usize = 50;

/// A user id is nine bytes, held whole.
pub type UserId = [u8; 9];

/// 'A' to 'Z' become 'a' to 'z'; '[', ']', '\' become '{', '}', '|', and '~' becomes '^'.
pub fn fold(byte: u8) -> u8 {
    match byte {
        b'A'..=b'Z' => byte - b'A' + b'a',
        b'[' => b'{',
        b']' => b'}',
        b'\\' => b'|',
        b'~' => b'^',
        _ => byte,
    }
}

/// Two names are equal if their folds are.
pub fn equal(a: &[u8], b: &[u8]) -> bool {
    a.len() == b.len() && a.iter().zip(b).all(|(&x, &y)| fold(x) == fold(y))
}

/// '#' and 1 to 49 further bytes, none of them SPACE, BELL, NUL, CR, LF or comma.
pub fn is_channel_name(name: &[u8]) -> bool {
    let Some(further) = name.strip_prefix(b"#") else {
        return false;
    };
    (1..NAME).contains(&further.len()) && further.iter().all(|&b| is_name_byte(b))
}

fn is_name_byte(byte: u8) -> bool {
    !matches!(byte, b' ' | 7 | 0 | b'\r' | b'\n' | b',')
}

/// Three bytes: a digit, then two of 'A' to 'Z' or '0' to '9'.
pub fn is_server_id(id: &[u8]) -> bool {
    id.len() == 3 && id[0].is_ascii_digit() && id[1..].iter().all(|&b| is_id_byte(b))
}

/// Nine bytes: a server id, one of 'A' to 'Z', then five of 'A' to 'Z' or '0' to '9'.
pub fn is_user_id(id: &[u8]) -> bool {
    id.len() == 9
        && is_server_id(&id[..3])
        && id[3].is_ascii_uppercase()
        && id[4..].iter().all(|&b| is_id_byte(b))
}

fn is_id_byte(byte: u8) -> bool {
    byte.is_ascii_uppercase() || byte.is_ascii_digit()
}

#[cfg(test)]
mod tests {
    use super::*;

    #[test]
    fn names_from_the_water() {
        assert!(equal(b"#A[", b"#a{"));
        assert!(equal(b"#~", b"#^"));
    }

    #[test]
    fn fold_is_as_the_papers_list_it() {
        let folded: Vec<u8> = (0..=255).filter(|&b| fold(b) != b).collect();
        assert_eq!(folded, b"ABCDEFGHIJKLMNOPQRSTUVWXYZ[\\]~");
        assert_eq!(
            folded.iter().map(|&b| fold(b)).collect::<Vec<u8>>(),
            b"abcdefghijklmnopqrstuvwxyz{|}^"
        );
    }

    #[test]
    fn channel_names_at_their_limits() {
        assert!(!is_channel_name(b""));
        assert!(!is_channel_name(b"#"));
        assert!(is_channel_name(b"#a"));
        assert!(!is_channel_name(b"&a"));
        assert!(is_channel_name(&[b'#'; 50]));
        assert!(!is_channel_name(&[b'#'; 51]));
        for byte in 0..=255 {
            let bad = [b' ', 7, 0, b'\r', b'\n', b','].contains(&byte);
            assert_eq!(is_channel_name(&[b'#', byte]), !bad, "{byte}");
        }
    }

    #[test]
    fn ids() {
        assert!(is_server_id(b"1AB") && is_server_id(b"000"));
        assert!(!is_server_id(b"AAB") && !is_server_id(b"1Ab") && !is_server_id(b"1AB0"));
        assert!(is_user_id(b"1ABAAAAAA") && is_user_id(b"1ABZ0Z9A9"));
        assert!(!is_user_id(b"1AB0AAAAA") && !is_user_id(b"1ABAAAAA") && !is_user_id(b"1ABAAAAa0"));
    }
}
