//! Stand-in for the crate `magnetar_proto`: the decoded frame, and encoders that keep
//! what they are given instead of writing protobuf.

pub use super::pb;

use super::bytes::{Bytes, BytesMut};

pub const MAX_FRAME_SIZE: usize = 5 * 1024 * 1024;

#[derive(Debug)]
pub enum FrameError {
    Incomplete { needed: usize },
    Unsupported,
}

#[derive(Debug, Clone)]
pub struct Frame {
    pub command: pb::BaseCommand,
    pub payload: Option<Payload>,
}

#[derive(Debug, Clone)]
pub struct Payload {
    pub metadata: pb::MessageMetadata,
    pub body: Bytes,
}

/// One reply of the broker.
#[derive(Debug, Clone)]
pub enum Sent {
    /// A command with no payload, by its type number.
    Command(i32),
    /// A send receipt, kept to check that the broker took the asserted id.
    Receipt(pb::CommandSendReceipt),
    /// A pushed message with its metadata and payload.
    Message(Box<pb::CommandMessage>, Box<pb::MessageMetadata>, Vec<u8>),
}

pub fn encode_command(out: &mut BytesMut, command: &pb::BaseCommand) -> Result<(), FrameError> {
    out.sent.push(match &command.send_receipt {
        Some(receipt) => Sent::Receipt(receipt.clone()),
        None => Sent::Command(command.r#type),
    });
    Ok(())
}

pub fn encode_payload(
    out: &mut BytesMut,
    command: &pb::BaseCommand,
    metadata: &pb::MessageMetadata,
    payload: &[u8],
) -> Result<(), FrameError> {
    let message = command.message.clone().ok_or(FrameError::Unsupported)?;
    out.sent.push(Sent::Message(Box::new(message), Box::new(metadata.clone()), payload.to_vec()));
    Ok(())
}

/// Never called with bytes: no session is read.
pub fn decode_one(_from: &mut Bytes) -> Result<Frame, FrameError> {
    Err(FrameError::Incomplete { needed: 0 })
}
