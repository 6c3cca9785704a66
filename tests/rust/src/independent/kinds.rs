//! "Kinds and payloads": the table of IDs, and the flags that a type byte has.

pub const NULL: u8 = 0x01;
pub const OBJECT: u8 = 0x02;
pub const UNIFORM_OBJECT: u8 = 0x03;
pub const ARRAY: u8 = 0x04;
pub const UNIFORM_ARRAY: u8 = 0x05;
pub const BINARY: u8 = 0x06;
pub const STRING: u8 = 0x07;
pub const INTEGER_POSITIVE: u8 = 0x08;
pub const INTEGER_NEGATIVE: u8 = 0x09;
pub const FLOAT32: u8 = 0x0A;
pub const FLOAT64: u8 = 0x0B;
pub const FALSE: u8 = 0x0C;
pub const TRUE: u8 = 0x0D;
pub const OBJECT_ATTACHMENT: u8 = 0x0E;
pub const BINARY_ATTACHMENT: u8 = 0x0F;
pub const HASH: u8 = 0x10;
pub const UUID: u8 = 0x11;
pub const DATE_TIME: u8 = 0x12;
pub const TIME_SPAN: u8 = 0x13;
pub const OBJECT_ID: u8 = 0x14;
pub const CUSTOM_BY_ID: u8 = 0x1E;
pub const CUSTOM_BY_NAME: u8 = 0x1F;

/// Every ID of the table.
pub const ALL: [u8; 22] = [
    NULL,
    OBJECT,
    UNIFORM_OBJECT,
    ARRAY,
    UNIFORM_ARRAY,
    BINARY,
    STRING,
    INTEGER_POSITIVE,
    INTEGER_NEGATIVE,
    FLOAT32,
    FLOAT64,
    FALSE,
    TRUE,
    OBJECT_ATTACHMENT,
    BINARY_ATTACHMENT,
    HASH,
    UUID,
    DATE_TIME,
    TIME_SPAN,
    OBJECT_ID,
    CUSTOM_BY_ID,
    CUSTOM_BY_NAME,
];

/// "a field of 02 has ID + C0 hex".
pub const FIELD_FLAGS: u8 = 0xC0;
/// "an item of 04 has ID + 40 hex".
pub const ITEM_FLAGS: u8 = 0x40;

/// "the shared byte of 03 is ID + 80 hex; 05 keeps the bare ID" (document 02, M-102).
pub const SHARED_FIELD_FLAGS: u8 = 0x80;

/// "Every other ID is unknown." A byte with a flag is above every ID, so it is unknown too.
pub fn is_known(id: u8) -> bool {
    matches!(id, NULL..=OBJECT_ID | CUSTOM_BY_ID | CUSTOM_BY_NAME)
}

/// The kinds "01, 0C or 0D", whose payload is nothing.
pub fn has_no_payload(id: u8) -> bool {
    matches!(id, NULL | FALSE | TRUE)
}

/// The bytes of a payload that has the same length in every field of its kind.
pub fn fixed_length(id: u8) -> Option<usize> {
    match id {
        NULL | FALSE | TRUE => Some(0),
        FLOAT32 => Some(4),
        FLOAT64 | DATE_TIME | TIME_SPAN => Some(8),
        OBJECT_ATTACHMENT | BINARY_ATTACHMENT | HASH => Some(20),
        UUID => Some(16),
        OBJECT_ID => Some(12),
        _ => None,
    }
}

pub fn is_object(id: u8) -> bool {
    matches!(id, OBJECT | UNIFORM_OBJECT)
}

pub fn is_array(id: u8) -> bool {
    matches!(id, ARRAY | UNIFORM_ARRAY)
}
