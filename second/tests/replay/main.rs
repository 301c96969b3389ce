//! Calls as bytes: the format, calls worked out by hand, and settings.

mod by_hand;
mod common;
mod format;
mod settings;
