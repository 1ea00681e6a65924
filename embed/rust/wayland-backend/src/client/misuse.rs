//! What a program did wrong with a request.

use std::os::unix::io::RawFd;

use super::ObjectId;
use crate::library::Status;
use crate::protocol::{
    same_interface, AllowNull, Argument, ArgumentType, Interface, Message, MessageDesc, ObjectInfo,
    ANONYMOUS_INTERFACE,
};

/// The text of the panic for a request that the session refused. `sender` is what the session knows of the sender.
pub(super) fn text(
    status: Status,
    message: &Message<ObjectId, RawFd>,
    child_spec: Option<(&'static Interface, u32)>,
    sender: Option<ObjectInfo>,
) -> String {
    let id = &message.sender_id;
    let Some(request) = id.interface().requests.get(usize::from(message.opcode)) else {
        return format!("Unknown opcode {} for object {id}.", message.opcode);
    };
    let name = request.name;
    let wrong_child = |expected: &str, got: &str| {
        format!("Error when sending request {id}.{name}: expected {expected} but got {got}")
    };
    match status {
        Status::BAD_SIGNATURE => format!(
            "Unexpected signature for request {id}.{name}: expected {:?}, got {:?}.",
            request.signature, message.args
        ),
        Status::WRONG_CHILD => wrong_child(
            &format!("interface {}", request.child_interface.unwrap_or(&ANONYMOUS_INTERFACE)),
            child_spec.map_or("none", |(interface, _)| interface.name),
        ),
        Status::WRONG_CHILD_VERSION => wrong_child(
            &format!("version {}", sender.map_or(0, |info| info.version)),
            &child_spec.map_or(0, |(_, version)| version).to_string(),
        ),
        Status::MISSING_CHILD => format!(
            "Error when sending request {id}.{name}: target interface must be specified for a generic constructor."
        ),
        Status::MISSING_DATA => {
            format!("Request {id}.{name} creates an object, and no object data was provided.")
        }
        Status::NOT_PLACEHOLDER => format!(
            "The newid provided when sending request {id}.{name} is not a placeholder."
        ),
        Status::NULL_OBJECT | Status::WRONG_INTERFACE => wrong_object(id, request, message),
        other => format!("Request {id}.{name} cannot be sent: {other}."),
    }
}

/// The first object argument that may not be what it is.
fn wrong_object(
    id: &ObjectId,
    request: &MessageDesc,
    message: &Message<ObjectId, RawFd>,
) -> String {
    let name = request.name;
    let mut interfaces = request.arg_interfaces.iter().copied();
    for (argument, kind) in message.args.iter().zip(request.signature) {
        let Argument::Object(object) = argument else {
            continue;
        };
        let expected = interfaces.next().unwrap_or(&ANONYMOUS_INTERFACE);
        if object.is_null() {
            if *kind == ArgumentType::Object(AllowNull::No) {
                return format!("Request {id}.{name} expects an non-null object argument.");
            }
        } else if !same_interface(expected, object.interface())
            && !same_interface(expected, &ANONYMOUS_INTERFACE)
        {
            return format!(
                "Request {id}.{name} expects an argument of interface {expected} but {} was provided instead.",
                object.interface()
            );
        }
    }
    format!(
        "Request {id}.{name} has a wrong object argument: {:?}.",
        message.args
    )
}
