//! Stand-in for the list of message objects: channels only.

use super::*;

mod channel;

pub use self::channel::*;
