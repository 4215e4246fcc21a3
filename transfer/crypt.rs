//! SHA-256-crypt, as Ulrich Drepper's "Unix crypt using SHA-256 and SHA-512" says it, step by step: the secret of a password.
use crate::sha::sha256;

/// The rounds of a secret that tells none.
const ROUNDS: usize = 5_000;

/// The most bytes of a salt.
const SALT: usize = 16;

/// The signs of secrets and salts, each with its six bits.
pub const SIGNS: &[u8; 64] = b"./0123456789ABCDEFGHIJKLMNOPQRSTUVWXYZabcdefghijklmnopqrstuvwxyz";

/// The secret of a password, by a salt and the rounds that are common.
pub fn secret_of(password: &[u8], salt: &str) -> String {
    format!("$5${salt}${}", written(&digest_of(password, salt.as_bytes(), ROUNDS)))
}

/// So many bytes of a digest, over and over.
fn repeated(digest: &[u8; 32], count: usize) -> Vec<u8> {
    digest.iter().copied().cycle().take(count).collect()
}

/// The digest that all rounds begin with (steps 1 to 12).
fn begun(password: &[u8], salt: &[u8]) -> [u8; 32] {
    let alternate = sha256(&[password, salt, password].concat());
    let mut text = [password, salt, &repeated(&alternate, password.len())].concat();
    let mut length = password.len();
    while length > 0 {
        text.extend_from_slice(if length & 1 == 1 { &alternate } else { password });
        length >>= 1;
    }
    sha256(&text)
}

/// The digest of a password after all rounds (steps 13 to 21).
fn digest_of(password: &[u8], salt: &[u8], rounds: usize) -> [u8; 32] {
    let salt = &salt[..salt.len().min(SALT)];
    let mut digest = begun(password, salt);
    let of_password = repeated(&sha256(&password.repeat(password.len())), password.len());
    let of_salt = repeated(&sha256(&salt.repeat(16 + usize::from(digest[0]))), salt.len());
    for round in 0..rounds {
        let mut text = Vec::new();
        text.extend_from_slice(if round % 2 == 1 { &of_password } else { &digest });
        if round % 3 != 0 {
            text.extend_from_slice(&of_salt);
        }
        if round % 7 != 0 {
            text.extend_from_slice(&of_password);
        }
        text.extend_from_slice(if round % 2 == 1 { &digest } else { &of_password });
        digest = sha256(&text);
    }
    digest
}

/// A digest as a secret has it: the bytes in threes, in the order of step 22, each three as four signs from the lowest bits on.
fn written(digest: &[u8; 32]) -> String {
    let (mut one, mut two, mut three) = (0, 10, 20);
    let mut text = String::new();
    for _ in 0..10 {
        add(&mut text, [digest[one], digest[two], digest[three]], 4);
        (one, two, three) = (three + 1, one + 1, two + 1);
    }
    add(&mut text, [0, digest[31], digest[30]], 3);
    text
}

fn add(text: &mut String, [high, middle, low]: [u8; 3], count: usize) {
    let bits = usize::from(high) << 16 | usize::from(middle) << 8 | usize::from(low);
    (0..count).for_each(|place| text.push(char::from(SIGNS[bits >> (6 * place) & 63])));
}

#[cfg(test)]
mod tests {
    use super::*;

    /// The secret of a password and of what stands before it in a secret, `$5$[rounds=N$]SALT`.
    fn secret(setting: &str, password: &str) -> String {
        let told = setting.strip_prefix("$5$").unwrap();
        let (rounds, salt) = match told.strip_prefix("rounds=").and_then(|told| told.split_once('$')) {
            Some((rounds, salt)) => (rounds.parse::<usize>().unwrap().max(1_000), salt),
            None => (ROUNDS, told),
        };
        let salt = &salt[..salt.len().min(SALT)];
        let rounds_text = if told.starts_with("rounds=") { format!("rounds={rounds}$") } else { String::new() };
        format!("$5${rounds_text}{salt}${}", written(&digest_of(password.as_bytes(), salt.as_bytes(), rounds)))
    }

    #[test]
    fn published() {
        // The vectors of the specification, but for the one of 123,456 rounds, and some that crypt(3) made.
        for (setting, password, wanted) in [
            ("$5$saltstring", "Hello world!", "$5$saltstring$5B8vYYiY.CVt1RlTTf8KbXBH3hsxY/GNooZaBBGWEc5"),
            ("$5$rounds=10000$saltstringsaltstring", "Hello world!", "$5$rounds=10000$saltstringsaltst$3xv.VbSHBb41AL9AvLeujZkZRBAwqFMz2.opqey6IcA"),
            ("$5$rounds=5000$toolongsaltstring", "This is just a test", "$5$rounds=5000$toolongsaltstrin$Un/5jzAHMgOGZ5.mWJpuVolil07guHPvOW8mGRcvxa5"),
            (
                "$5$rounds=1400$anotherlongsaltstring",
                "a very much longer text to encrypt.  This one even stretches over morethan one line.",
                "$5$rounds=1400$anotherlongsalts$Rx.j8H.h8HjEDGomFU8bDkXm3XIUnzyxf12oP84Bnq1",
            ),
            ("$5$rounds=77777$short", "we have a short salt string but not a short password", "$5$rounds=77777$short$JiO1O3ZpDAxGJeaDIuqCoEFysAe1mZNJRs3pw0KQRd/"),
            ("$5$rounds=10$roundstoolow", "the minimum number is still observed", "$5$rounds=1000$roundstoolow$yfvwcWrQ8l/K0DAWyuPMDNHpIVlTQebY9l/gL972bIC"),
            ("$5$rounds=1000$s", "a", "$5$rounds=1000$s$z5VgeXlzT.M8/EMRKo9XOcikNGiuKT9gSGajArVUrH0"),
            ("$5$rounds=1000$utf8", "pässwörd", "$5$rounds=1000$utf8$mBziV0Goi56tSPuFYnjQfbIpZG11LQ8PSFSpkMKnSRD"),
            ("$5$rounds=1000$sal", "abcdefghijklmnopqrstuvwxyz0123456789abcdefghijklmnopqrstuvwxyz012345678", "$5$rounds=1000$sal$ats12/0h.a1QbrNy7Vog2ezDrrJumwq4WmumiZ/4uuC"),
        ] {
            assert_eq!(secret(setting, password), wanted);
        }
        assert_eq!(secret_of(b"Hello world!", "saltstring"), "$5$saltstring$5B8vYYiY.CVt1RlTTf8KbXBH3hsxY/GNooZaBBGWEc5");
    }
}
