//! What is written is read back, and what cannot be written is refused.
use super::*;

#[test]
fn what_is_written_is_found() {
    let headers = Headers::new()
        .name("log \u{10348}")
        .and_then(|h| h.length(70_000))
        .and_then(|h| h.content_type("text/plain"))
        .and_then(|h| h.connection_id(7))
        .and_then(|h| h.bytes(id::APPLICATION_PARAMETERS, &[1, 1, 5]))
        .and_then(|h| h.byte(id::SINGLE_RESPONSE_MODE, 1))
        .unwrap();
    assert_eq!(text(find(&headers, id::NAME).unwrap()), "log \u{10348}");
    assert_eq!(find(&headers, id::LENGTH).and_then(number), Some(70_000));
    assert_eq!(ascii(find(&headers, id::TYPE).unwrap()), "text/plain");
    assert_eq!(find(&headers, id::CONNECTION_ID).and_then(number), Some(7));
    assert_eq!(find(&headers, id::APPLICATION_PARAMETERS), Some(&[1, 1, 5][..]));
    assert_eq!(find(&headers, id::SINGLE_RESPONSE_MODE), Some(&[1][..]));
    assert_eq!(find(&headers, id::WHO), None);
}

#[test]
fn any_text_fits_its_store() {
    for value in [&[0xD8, 0x00][..], &[0xD8, 0x00, 0, b'a'], &[0xFF, 0xFE, 0x12], &[0xFF; 9], &[]] {
        assert!(text(value).len() <= 2 * value.len() + 4);
        assert!(ascii(value).len() <= 3 * value.len() + 4);
    }
    assert_eq!(text(&[0x20, 0xAC, 0, 0]), "\u{20AC}");
    assert_eq!(ascii(&[0xFF, b'a', 0]), "\u{FFFD}a");
}

#[test]
fn what_is_too_long_is_refused() {
    assert_eq!(Headers::new().bytes(id::TARGET, &vec![0; 65_533]), Err(TooLong));
    assert!(Headers::new().bytes(id::TARGET, &vec![0; 65_532]).is_ok());
    assert_eq!(Headers::new().name(&"a".repeat(32_766)), Err(TooLong));
    assert!(Headers::new().name(&"a".repeat(32_765)).is_ok());
    let challenge = Challenge { nonce: [3; 16], user_id_required: true, read_only: false, realm: None };
    assert_eq!(Headers::new().answer(&challenge, Some(&[b'u'; 256]), b"1234"), Err(TooLong));
    assert!(Headers::new().answer(&challenge, Some(&[b'u'; 255]), b"1234").is_ok());
}

#[test]
fn a_challenge_is_read_and_answered() {
    let value = [&[0, 16][..], &[9; 16], &[1, 1, 3], &[2, 4, 0, b'a', b'b', b'c']].concat();
    let challenge = Challenge::read(&value).unwrap();
    assert_eq!(challenge, Challenge { nonce: [9; 16], user_id_required: true, read_only: true, realm: Some(&[0, b'a', b'b', b'c']) });
    assert_eq!(Challenge::read(&value[..10]), None);
    let headers = Headers::new().answer(&challenge, Some(b"op"), b"1234").unwrap();
    let answer = find(&headers, id::AUTHENTICATE_RESPONSE).unwrap();
    // The digest of "nonce:password", the user id, the nonce.
    assert_eq!((answer.len(), &answer[..2], &answer[18..22], &answer[22..]), (40, &[0, 16][..], &[1, 2, b'o', b'p'][..], &[&[2, 16][..], &[9; 16]].concat()[..]));
}
