//! The ids of headers that programs use (IrOBEX 1.5, section 2.1). The two top bits say what the value
//! is: text, bytes, one byte, or a number of four bytes.

/// How many objects there are.
pub const COUNT: u8 = 0xC0;
/// The name of an object, as text.
pub const NAME: u8 = 0x01;
/// What an object is, as a media type.
pub const TYPE: u8 = 0x42;
/// How many bytes an object has.
pub const LENGTH: u8 = 0xC3;
/// When an object was changed last.
pub const TIME: u8 = 0x44;
/// What an object is, as text.
pub const DESCRIPTION: u8 = 0x05;
/// The service that a connection is directed to.
pub const TARGET: u8 = 0x46;
/// A part of an object's body.
pub const BODY: u8 = 0x48;
/// The last part of an object's body.
pub const END_OF_BODY: u8 = 0x49;
/// The service that answers.
pub const WHO: u8 = 0x4A;
/// The connection that a packet belongs to.
pub const CONNECTION_ID: u8 = 0xCB;
/// Parameters of the application, as a tag list.
pub const APPLICATION_PARAMETERS: u8 = 0x4C;
/// A challenge, as a tag list.
pub const AUTHENTICATE_CHALLENGE: u8 = 0x4D;
/// The answer to a challenge, as a tag list.
pub const AUTHENTICATE_RESPONSE: u8 = 0x4E;
/// Whether Single Response Mode is asked for or granted.
pub const SINGLE_RESPONSE_MODE: u8 = 0x97;
