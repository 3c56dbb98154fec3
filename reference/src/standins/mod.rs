//! Stand-ins for the crates that broker.rs names: `bytes`, `parking_lot`, `tokio` and
//! `magnetar_proto`. They have the fields and functions that broker.rs uses and no
//! others. Only its consumer side is run here; the session loop and the sockets have to
//! compile, not to work.

pub mod bytes;
pub mod magnetar_proto;
pub mod parking_lot;
pub mod pb;
pub mod tokio;
