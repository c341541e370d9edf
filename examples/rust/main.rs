//! Makes a key of a password and a checksum of the salt under it, and prints both:
//! main ETYPE CKSUMTYPE SALTHEX <PASSWORD.
//!
//! The password is what standard input has, without a line feed at its end, and at most 1024 octets.
//! It does not stand in the arguments, since other users of the machine see those. The exit status is
//! 1 if the library refuses or the password cannot be read, and 2 if the arguments are wrong.
//!
//! rustc main.rs -L PREFIX/lib -l krbc

use std::env;
use std::io::{self, Read, Write};
use std::process::exit;
use std::ptr::null;

const LONGEST_PASSWORD: usize = 1024;

extern "C" {
    fn krb_key_size(etype: i32) -> usize;
    fn krb_checksum_size(cksumtype: i32) -> usize;
    fn krb_string_to_key(
        etype: i32,
        password: *const u8,
        password_size: usize,
        salt: *const u8,
        salt_size: usize,
        out: *mut u8,
        room: usize,
        size: *mut usize,
    ) -> u32;
    fn krb_checksum(
        cksumtype: i32,
        key: *const u8,
        key_size: usize,
        usage: i32,
        message: *const u8,
        message_size: usize,
        out: *mut u8,
        room: usize,
        size: *mut usize,
    ) -> u32;
}

/// Why the program ends: its exit status, and what it says.
type Failure = (i32, String);

/// The pointer of octets as C takes it: null if there are none.
fn at(octets: &[u8]) -> *const u8 {
    if octets.is_empty() {
        null()
    } else {
        octets.as_ptr()
    }
}

/// Gives a call its room, and cuts it to what the call answers.
fn answer(
    room: usize,
    call: impl Fn(*mut u8, usize, *mut usize) -> u32,
) -> Result<Vec<u8>, Failure> {
    let (mut out, mut size) = (vec![0; room], 0);
    match call(out.as_mut_ptr(), room, &mut size) {
        0 => {
            out.truncate(size);
            Ok(out)
        }
        status => Err((
            1,
            format!("the library refuses, with status {status} of krb.h"),
        )),
    }
}

/// The key of a password and a salt.
fn string_to_key(etype: i32, password: &[u8], salt: &[u8]) -> Result<Vec<u8>, Failure> {
    // SAFETY: each pointer goes with the count of what it is to, and `out` and `size` are of a
    // vector and a number that nothing else holds.
    answer(unsafe { krb_key_size(etype) }, |out, room, size| unsafe {
        krb_string_to_key(
            etype,
            at(password),
            password.len(),
            at(salt),
            salt.len(),
            out,
            room,
            size,
        )
    })
}

/// The checksum of a message under a key, for key usage 7.
fn checksum(cksumtype: i32, key: &[u8], message: &[u8]) -> Result<Vec<u8>, Failure> {
    // SAFETY: as in `string_to_key`.
    answer(
        unsafe { krb_checksum_size(cksumtype) },
        |out, room, size| unsafe {
            krb_checksum(
                cksumtype,
                at(key),
                key.len(),
                7,
                at(message),
                message.len(),
                out,
                room,
                size,
            )
        },
    )
}

/// A number of 32 bits.
fn number(word: &str) -> Result<i32, Failure> {
    word.parse()
        .map_err(|error| (2, format!("{word:?}: {error}")))
}

/// The octets of hexadecimal digits, two for each octet.
fn octets_of(word: &str) -> Result<Vec<u8>, Failure> {
    let digits: Option<Vec<u32>> = word.chars().map(|letter| letter.to_digit(16)).collect();
    match digits {
        Some(digits) if digits.len() % 2 == 0 => Ok(digits
            .chunks(2)
            .map(|pair| (pair[0] << 4 | pair[1]) as u8)
            .collect()),
        _ => Err((
            2,
            format!("{word:?}: not two hexadecimal digits for each octet"),
        )),
    }
}

/// The password that stands in the input.
fn read_password(input: impl Read) -> Result<Vec<u8>, Failure> {
    let mut password = Vec::new();
    let most = LONGEST_PASSWORD as u64 + 2;
    input
        .take(most)
        .read_to_end(&mut password)
        .map_err(|error| (1, error.to_string()))?;
    if password.last() == Some(&b'\n') {
        password.pop();
    }
    if password.len() > LONGEST_PASSWORD {
        return Err((
            1,
            format!("the password has more than {LONGEST_PASSWORD} octets"),
        ));
    }
    Ok(password)
}

fn hexadecimal(octets: &[u8]) -> String {
    octets.iter().map(|octet| format!("{octet:02x}")).collect()
}

fn tried(words: &[String]) -> Result<(), Failure> {
    let [_, etype, cksumtype, salt] = words else {
        return Err((
            2,
            "usage: main ETYPE CKSUMTYPE SALTHEX <PASSWORD".to_owned(),
        ));
    };
    let (etype, cksumtype, salt) = (number(etype)?, number(cksumtype)?, octets_of(salt)?);
    let key = string_to_key(etype, &read_password(io::stdin())?, &salt)?;
    let sum = checksum(cksumtype, &key, &salt)?;
    writeln!(io::stdout(), "{}\n{}", hexadecimal(&key), hexadecimal(&sum))
        .map_err(|error| (1, error.to_string()))
}

fn main() {
    let words: Vec<String> = env::args_os()
        .map(|word| word.to_string_lossy().into_owned())
        .collect();
    if let Err((status, why)) = tried(&words) {
        eprintln!("main: {why}");
        exit(status);
    }
}
