//! A client beside a server that is this test: it reads and writes bytes and descriptors by itself.

use std::fs::File;
use std::io::{IoSlice, IoSliceMut, Read, Seek, Write};
use std::os::fd::{AsFd, AsRawFd, BorrowedFd, OwnedFd, RawFd};
use std::os::unix::net::UnixStream;
use std::panic::{catch_unwind, AssertUnwindSafe};
use std::sync::{mpsc, Arc, Mutex, Weak};
use std::thread;
use std::time::Duration;

use rustix::event::{poll, PollFd, PollFlags};
use rustix::net::{
    recvmsg, sendmsg, RecvAncillaryBuffer, RecvAncillaryMessage, RecvFlags, SendAncillaryBuffer,
    SendAncillaryMessage, SendFlags,
};
use wayland_backend::client::{Backend, InvalidId, ObjectData, ObjectId, WaylandError};
use wayland_backend::message;
use wayland_backend::protocol::{
    AllowNull, Argument, ArgumentType, Interface, Message, MessageDesc, ProtocolError,
};

// ======== A protocol

const fn message(name: &'static str, signature: &'static [ArgumentType]) -> MessageDesc {
    MessageDesc {
        name,
        signature,
        since: 1,
        is_destructor: false,
        child_interface: None,
        arg_interfaces: &[],
    }
}

const fn maker(name: &'static str, child: &'static Interface) -> MessageDesc {
    MessageDesc {
        child_interface: Some(child),
        ..message(name, &[ArgumentType::NewId])
    }
}

const fn interface(
    name: &'static str,
    requests: &'static [MessageDesc],
    events: &'static [MessageDesc],
) -> Interface {
    Interface {
        name,
        version: 3,
        requests,
        events,
        c_ptr: None,
    }
}

static REGISTRY: Interface = interface(
    "wl_registry",
    &[message(
        "bind",
        &[
            ArgumentType::Uint,
            ArgumentType::Str(AllowNull::No),
            ArgumentType::Uint,
            ArgumentType::NewId,
        ],
    )],
    &[],
);

const DESTROY: u16 = 0;
const MAKE: u16 = 1;
const GIVE: u16 = 2;
const WRITE: u16 = 3;
const TAKE: u16 = 4;
const FILL: u16 = 5;
const BORROW: u16 = 6;

const MADE: u16 = 0;
const GAVE: u16 = 1;
const VALUES: u16 = 2;
const DONE: u16 = 3;
const BLOB: u16 = 4;

static THING: Interface = interface(
    "thing",
    &[
        MessageDesc {
            is_destructor: true,
            ..message("destroy", &[])
        },
        maker("make", &PART),
        message("give", &[ArgumentType::Fd]),
        message("write", &[ArgumentType::Str(AllowNull::Yes)]),
        MessageDesc {
            arg_interfaces: &[&PART],
            ..message("take", &[ArgumentType::Object(AllowNull::No)])
        },
        message("fill", &[ArgumentType::Array]),
        MessageDesc {
            child_interface: Some(&PART),
            ..message("borrow", &[ArgumentType::NewId, ArgumentType::Fd])
        },
    ],
    &[
        maker("made", &PART),
        message("gave", &[ArgumentType::Fd]),
        MessageDesc {
            arg_interfaces: &[&PART],
            ..message(
                "values",
                &[
                    ArgumentType::Int,
                    ArgumentType::Uint,
                    ArgumentType::Fixed,
                    ArgumentType::Str(AllowNull::Yes),
                    ArgumentType::Array,
                    ArgumentType::Object(AllowNull::Yes),
                ],
            )
        },
        MessageDesc {
            is_destructor: true,
            ..message("done", &[])
        },
        message("blob", &[ArgumentType::Array]),
    ],
);

static PART: Interface = interface(
    "part",
    &[MessageDesc {
        is_destructor: true,
        ..message("destroy", &[])
    }],
    &[
        message("ping", &[ArgumentType::Uint]),
        message("gave", &[ArgumentType::Fd]),
    ],
);

// ======== The client's side

type Event = Message<ObjectId, OwnedFd>;
type Answer = Option<Arc<dyn ObjectData>>;

/// Data that do what the test says.
struct Data<F> {
    event: F,
    destroyed: Mutex<Vec<ObjectId>>,
}

impl<F> ObjectData for Data<F>
where
    F: Fn(&Backend, Event) -> Answer + Send + Sync + 'static,
{
    fn event(self: Arc<Self>, backend: &Backend, msg: Event) -> Answer {
        (self.event)(backend, msg)
    }

    fn destroyed(&self, id: ObjectId) {
        self.destroyed.lock().unwrap().push(id);
    }
}

impl<F> Data<F> {
    fn destroyed(&self) -> Vec<ObjectId> {
        self.destroyed.lock().unwrap().clone()
    }
}

fn data<F: Fn(&Backend, Event) -> Answer + Send + Sync + 'static>(event: F) -> Arc<Data<F>> {
    Arc::new(Data {
        event,
        destroyed: Mutex::new(Vec::new()),
    })
}

/// Data of an object that gets no event.
fn quiet() -> Arc<Data<impl Fn(&Backend, Event) -> Answer>> {
    data(|_, event| panic!("an event: {event:?}"))
}

/// Data that keep the events that come.
fn keeper() -> (Arc<dyn ObjectData>, Arc<Mutex<Vec<Event>>>) {
    let kept = Arc::new(Mutex::new(Vec::new()));
    let events = kept.clone();
    let keeper = data(move |_, event| {
        events.lock().unwrap().push(event);
        None
    });
    (keeper, kept)
}

fn read(client: &Backend) -> Result<usize, WaylandError> {
    client.prepare_read().unwrap().read()
}

fn would_block<T: std::fmt::Debug>(result: Result<T, WaylandError>) -> bool {
    matches!(result, Err(WaylandError::Io(error)) if error.kind() == std::io::ErrorKind::WouldBlock)
}

/// The text of the panic of this call.
fn panic_of<T>(call: impl FnOnce() -> T) -> String {
    let panic = catch_unwind(AssertUnwindSafe(call))
        .err()
        .expect("it panics");
    match panic.downcast::<String>() {
        Ok(text) => *text,
        Err(panic) => (*panic.downcast::<&str>().expect("a text")).into(),
    }
}

/// A client that has bound a thing, which is object 3; and its server's socket.
fn bound(data: Arc<dyn ObjectData>) -> (Backend, UnixStream, ObjectId) {
    let (client, server) = UnixStream::pair().unwrap();
    let client = Backend::connect(client).unwrap();
    let display = client.display_id();
    let registry = client
        .send_request(
            message!(display, 1, [Argument::NewId(ObjectId::null())]),
            Some(quiet()),
            Some((&REGISTRY, 1)),
        )
        .unwrap();
    let bind = message!(
        registry,
        0,
        [
            Argument::Uint(1),
            Argument::Str(Some(Box::new(c"thing".into()))),
            Argument::Uint(3),
            Argument::NewId(ObjectId::null()),
        ]
    );
    let thing = client
        .send_request(bind, Some(data), Some((&THING, 3)))
        .unwrap();
    client.flush().unwrap();
    let (came, _) = take(&server, 12 + 32);
    assert_eq!(came[40..], 3_u32.to_ne_bytes());
    (client, server, thing)
}

fn make(
    client: &Backend,
    thing: &ObjectId,
    data: Arc<dyn ObjectData>,
) -> Result<ObjectId, InvalidId> {
    client.send_request(
        message!(thing.clone(), MAKE, [Argument::NewId(ObjectId::null())]),
        Some(data),
        None,
    )
}

fn send(
    client: &Backend,
    object: &ObjectId,
    opcode: u16,
    arguments: &[Argument<ObjectId, RawFd>],
) -> Result<ObjectId, InvalidId> {
    let message = Message {
        sender_id: object.clone(),
        opcode,
        args: arguments.into(),
    };
    client.send_request(message, None, None)
}

// ======== The server's side

/// The bytes of a message.
fn bytes(object: u32, opcode: u16, words: &[u32]) -> Vec<u8> {
    raw(
        object,
        opcode,
        &words
            .iter()
            .flat_map(|word| word.to_ne_bytes())
            .collect::<Vec<u8>>(),
    )
}

fn raw(object: u32, opcode: u16, body: &[u8]) -> Vec<u8> {
    let mut bytes = object.to_ne_bytes().to_vec();
    let length = 8 + body.len() as u32;
    bytes.extend((length << 16 | u32::from(opcode)).to_ne_bytes());
    bytes.extend(body);
    bytes
}

/// A string or array: its length, its bytes, and zeros until it ends with a word.
fn run(content: &[u8]) -> Vec<u8> {
    let mut bytes = (content.len() as u32).to_ne_bytes().to_vec();
    bytes.extend(content);
    bytes.resize(bytes.len().next_multiple_of(4), 0);
    bytes
}

fn give(server: &UnixStream, bytes: &[u8], descriptors: &[BorrowedFd<'_>]) {
    let mut space = vec![0; rustix::cmsg_space!(ScmRights(64))];
    let mut control = SendAncillaryBuffer::new(&mut space);
    assert!(descriptors.is_empty() || control.push(SendAncillaryMessage::ScmRights(descriptors)));
    let sent = sendmsg(
        server,
        &[IoSlice::new(bytes)],
        &mut control,
        SendFlags::empty(),
    )
    .unwrap();
    assert_eq!(sent, bytes.len());
}

/// Reads this many bytes, and the descriptors that come with them.
fn take(server: &UnixStream, length: usize) -> (Vec<u8>, Vec<OwnedFd>) {
    let (mut bytes, mut descriptors) = (Vec::new(), Vec::new());
    while bytes.len() < length {
        let mut part = vec![0; length - bytes.len()];
        let mut space = vec![0; rustix::cmsg_space!(ScmRights(64))];
        let mut control = RecvAncillaryBuffer::new(&mut space);
        let count = recvmsg(
            server,
            &mut [IoSliceMut::new(&mut part)],
            &mut control,
            RecvFlags::empty(),
        )
        .unwrap()
        .bytes;
        assert_ne!(count, 0, "the end of the stream");
        bytes.extend(&part[..count]);
        for message in control.drain() {
            if let RecvAncillaryMessage::ScmRights(rights) = message {
                descriptors.extend(rights);
            }
        }
    }
    (bytes, descriptors)
}

/// A file with this text.
fn file(text: &str) -> File {
    let mut file =
        File::from(rustix::fs::memfd_create("file", rustix::fs::MemfdFlags::CLOEXEC).unwrap());
    file.write_all(text.as_bytes()).unwrap();
    file
}

fn text_of(descriptor: &OwnedFd) -> String {
    let mut file = File::from(descriptor.try_clone().unwrap());
    let mut text = String::new();
    file.rewind().unwrap();
    file.read_to_string(&mut text).unwrap();
    text
}

/// Whether all copies of the other end of this stream are closed.
fn is_last(stream: &UnixStream) -> bool {
    stream.set_nonblocking(true).unwrap();
    matches!((&*stream).read(&mut [0; 1]), Ok(0))
}

// ======== Requests

#[test]
fn requests_are_the_bytes_of_the_protocol() {
    let (client, server) = UnixStream::pair().unwrap();
    let client = Backend::connect(client).unwrap();
    let display = client.display_id();
    assert_eq!(display.to_string(), "wl_display@1");
    let registry = client
        .send_request(
            message!(display, 1, [Argument::NewId(ObjectId::null())]),
            Some(quiet()),
            None,
        )
        .unwrap();
    assert_eq!(
        (registry.protocol_id(), registry.interface().name),
        (2, "wl_registry")
    );
    client.flush().unwrap();
    assert_eq!(take(&server, 12).0, bytes(1, 1, &[2]));
}

#[test]
fn strings_and_arrays_are_sent_up_to_the_longest_message() {
    let (client, server, thing) = bound(quiet());
    for length in [0, 1, 3, 4, 4096, 65_000] {
        let content = vec![b'a'; length];
        let text = std::ffi::CString::new(content.clone()).unwrap();
        send(
            &client,
            &thing,
            WRITE,
            &[Argument::Str(Some(Box::new(text.clone())))],
        )
        .unwrap();
        send(
            &client,
            &thing,
            FILL,
            &[Argument::Array(Box::new(content.clone()))],
        )
        .unwrap();
        let mut expected = raw(3, WRITE, &run(text.as_bytes_with_nul()));
        expected.extend(raw(3, FILL, &run(&content)));
        client.flush().unwrap();
        assert_eq!(take(&server, expected.len()).0, expected, "{length}");
    }
    send(&client, &thing, WRITE, &[Argument::Str(None)]).unwrap();
    client.flush().unwrap();
    assert_eq!(take(&server, 12).0, bytes(3, WRITE, &[0]));
}

#[test]
fn a_request_that_is_too_long_ends_the_connection() {
    let (client, _server, thing) = bound(quiet());
    send(
        &client,
        &thing,
        FILL,
        &[Argument::Array(Box::new(vec![0; 70_000]))],
    )
    .unwrap();
    let error = client.flush().unwrap_err();
    assert!(
        matches!(&error, WaylandError::Io(error) if error.raw_os_error() == Some(7)),
        "{error:?}"
    ); // E2BIG
    assert!(client.last_error().is_some());
}

#[test]
fn descriptors_are_sent_as_copies_and_closed() {
    let (client, server, thing) = bound(quiet());
    let (watch, end) = UnixStream::pair().unwrap();
    let sent = file("text");
    send(&client, &thing, GIVE, &[Argument::Fd(sent.as_raw_fd())]).unwrap();
    send(&client, &thing, GIVE, &[Argument::Fd(end.as_raw_fd())]).unwrap();
    drop(end);
    assert!(!is_last(&watch), "the session has a copy");
    client.flush().unwrap();
    let (_, descriptors) = take(&server, 16);
    assert_eq!(text_of(&descriptors[0]), "text");
    assert!(!is_last(&watch), "the server has a copy");
    drop(descriptors);
    assert!(is_last(&watch), "no other copy is left");
}

#[test]
fn many_descriptors_in_a_flush_all_arrive() {
    let (client, server, thing) = bound(quiet());
    for at in 0..100 {
        let sent = file(&at.to_string());
        send(&client, &thing, GIVE, &[Argument::Fd(sent.as_raw_fd())]).unwrap();
    }
    client.flush().unwrap();
    let (bytes, descriptors) = take(&server, 800);
    assert_eq!(bytes.len(), 800);
    let texts: Vec<String> = descriptors.iter().map(text_of).collect();
    let expected: Vec<String> = (0..100).map(|at| at.to_string()).collect();
    assert_eq!(texts, expected);
}

#[test]
fn a_descriptor_that_is_none_ends_the_connection() {
    let (client, _server, thing) = bound(quiet());
    assert!(send(&client, &thing, GIVE, &[Argument::Fd(-1)])
        .unwrap()
        .is_null());
    let error = client.flush().unwrap_err();
    assert!(
        matches!(&error, WaylandError::Io(error) if error.raw_os_error() == Some(9)),
        "{error:?}"
    ); // EBADF
    assert!(read(&client).is_err());
}

#[test]
fn a_request_whose_descriptor_is_none_makes_its_object() {
    let (client, server, thing) = bound(quiet());
    let kept = file("kept");
    let borrow = |descriptor| {
        let new = Argument::NewId(ObjectId::null());
        let request = message!(thing.clone(), BORROW, [new, Argument::Fd(descriptor)]);
        client.send_request(request, Some(quiet()), None).unwrap()
    };
    let (part, next) = (borrow(1_000_000), borrow(kept.as_raw_fd()));
    assert_eq!((part.protocol_id(), next.protocol_id()), (4, 5));
    assert_eq!(client.info(part.clone()).unwrap().id, 4);
    assert!(client.get_data(part).is_ok());
    assert_eq!(client.info(next).unwrap().id, 5);
    // Neither is sent.
    assert!(client.flush().is_err());
    server.set_nonblocking(true).unwrap();
    assert!((&server).read(&mut [0; 1]).is_err());
    // A misuse is told first, and is no fault of the connection.
    let (client, _server, thing) = bound(quiet());
    let arguments = [Argument::Uint(1), Argument::Fd(1_000_000)];
    assert!(panic_of(|| send(&client, &thing, GIVE, &arguments)).starts_with("Unexpected"));
    assert!(client.flush().is_ok());
}

#[test]
fn a_full_socket_would_block_and_nothing_is_lost() {
    let (client, server, thing) = bound(quiet());
    let content = vec![7; 50_000];
    let one = raw(3, FILL, &run(&content));
    let mut waiting = 0;
    while client.flush().is_ok() {
        let sent = file(&waiting.to_string());
        send(&client, &thing, GIVE, &[Argument::Fd(sent.as_raw_fd())]).unwrap();
        send(
            &client,
            &thing,
            FILL,
            &[Argument::Array(Box::new(content.clone()))],
        )
        .unwrap();
        waiting += 1;
    }
    assert!(would_block(client.flush()));
    let reader = thread::spawn(move || take(&server, waiting * (8 + one.len())));
    while would_block(client.flush()) {
        thread::sleep(Duration::from_millis(1));
    }
    let (came, descriptors) = reader.join().unwrap();
    let one = [bytes(3, GIVE, &[]), raw(3, FILL, &run(&content))].concat();
    assert!(came.chunks(one.len()).all(|part| part == one));
    let texts: Vec<String> = descriptors.iter().map(text_of).collect();
    let expected: Vec<String> = (0..waiting).map(|at| at.to_string()).collect();
    assert_eq!(texts, expected);
    assert!(client.flush().is_ok());
}

#[test]
fn misuse_panics_and_the_connection_goes_on() {
    let (client, server, thing) = bound(quiet());
    let null = ObjectId::null;
    let part = make(&client, &thing, quiet()).unwrap();
    let request = |opcode, args: &[Argument<ObjectId, RawFd>], data: bool, child| {
        let message = Message {
            sender_id: thing.clone(),
            opcode,
            args: args.into(),
        };
        let data: Option<Arc<dyn ObjectData>> = if data { Some(quiet()) } else { None };
        panic_of(|| client.send_request(message, data, child))
    };
    assert_eq!(
        request(9, &[], false, None),
        "Unknown opcode 9 for object thing@3."
    );
    assert!(request(WRITE, &[], false, None)
        .starts_with("Unexpected signature for request thing@3.write"));
    assert!(request(MAKE, &[Argument::NewId(null())], false, None).contains("no object data"));
    assert!(
        request(MAKE, &[Argument::NewId(part.clone())], true, None).contains("not a placeholder")
    );
    assert!(
        request(MAKE, &[Argument::NewId(null())], true, Some((&THING, 3)))
            .ends_with("expected interface part but got thing")
    );
    assert!(
        request(MAKE, &[Argument::NewId(null())], true, Some((&PART, 2)))
            .ends_with("expected version 3 but got 2")
    );
    assert!(request(TAKE, &[Argument::Object(null())], false, None).contains("non-null"));
    assert!(
        request(TAKE, &[Argument::Object(thing.clone())], false, None)
            .contains("expects an argument of interface part but thing was provided")
    );
    let display = client.display_id();
    let registry = client
        .send_request(
            message!(display, 1, [Argument::NewId(null())]),
            Some(quiet()),
            None,
        )
        .unwrap();
    let bind = message!(
        registry,
        0,
        [
            Argument::Uint(1),
            Argument::Str(Some(Box::new(c"thing".into()))),
            Argument::Uint(3),
            Argument::NewId(null()),
        ]
    );
    assert!(panic_of(|| client.send_request(bind, Some(quiet()), None))
        .ends_with("target interface must be specified for a generic constructor."));
    // Nothing of all this was sent.
    send(&client, &thing, TAKE, &[Argument::Object(part)]).unwrap();
    client.flush().unwrap();
    let expected = [
        bytes(3, MAKE, &[4]),
        bytes(1, 1, &[5]),
        bytes(3, TAKE, &[4]),
    ]
    .concat();
    assert_eq!(take(&server, expected.len()).0, expected);
}

#[test]
fn a_static_whose_rows_make_no_table_panics_and_the_connection_goes_on() {
    static BAD: Interface = interface("bad", &[message("make", &[ArgumentType::NewId])], &[]);
    let (client, _server, _) = bound(quiet());
    let registry = client
        .send_request(
            message!(client.display_id(), 1, [Argument::NewId(ObjectId::null())]),
            Some(quiet()),
            None,
        )
        .unwrap();
    let bind = |interface: &'static Interface| {
        let bind = message!(
            registry.clone(),
            0,
            [
                Argument::Uint(1),
                Argument::Str(Some(Box::new(c"bad".into()))),
                Argument::Uint(1),
                Argument::NewId(ObjectId::null()),
            ]
        );
        client.send_request(bind, Some(quiet()), Some((interface, 1)))
    };
    assert!(panic_of(|| bind(&BAD)).starts_with("The interface bad cannot be used"));
    assert!(bind(&THING).is_ok());
}

// ======== Events

#[test]
fn arguments_of_events_are_what_was_sent() {
    let (events, kept) = keeper();
    let (client, server, thing) = bound(events);
    let part = make(&client, &thing, quiet()).unwrap();
    let mut body = Vec::new();
    for word in [-5_i32 as u32, 4_000_000_000, 384] {
        body.extend(word.to_ne_bytes());
    }
    body.extend(run(b"text\0"));
    body.extend(run(&[1, 2, 3]));
    body.extend(4_u32.to_ne_bytes());
    give(&server, &raw(3, VALUES, &body), &[]);
    give(&server, &bytes(3, VALUES, &[0, 0, 0, 0, 0, 0]), &[]);
    assert_eq!(read(&client).unwrap(), 2);
    let events = kept.lock().unwrap();
    assert_eq!((&events[0].sender_id, events[0].opcode), (&thing, VALUES));
    assert_eq!(
        events[0].args.as_slice(),
        [
            Argument::Int(-5),
            Argument::Uint(4_000_000_000),
            Argument::Fixed(384),
            Argument::Str(Some(Box::new(c"text".into()))),
            Argument::Array(Box::new(vec![1, 2, 3])),
            Argument::Object(part),
        ]
    );
    assert_eq!(
        events[1].args[3..],
        [
            Argument::Str(None),
            Argument::Array(Box::default()),
            Argument::Object(ObjectId::null()),
        ]
    );
}

#[test]
fn an_event_may_be_as_long_as_a_message() {
    let (events, kept) = keeper();
    let (client, server, _) = bound(events);
    for length in [4096, 9000, 65_000] {
        let content = vec![length as u8; length];
        let sent = raw(3, BLOB, &run(&content));
        thread::scope(|scope| {
            scope.spawn(|| (&server).write_all(&sent).unwrap());
            while kept.lock().unwrap().is_empty() {
                let _ = read(&client);
            }
        });
        let event = kept.lock().unwrap().remove(0);
        assert_eq!(event.args[0], Argument::Array(Box::new(content)));
    }
}

#[test]
fn descriptors_of_events_are_the_callbacks() {
    let (events, kept) = keeper();
    let (client, server, _) = bound(events);
    let sent = file("text");
    give(&server, &bytes(3, GAVE, &[]), &[sent.as_fd()]);
    assert_eq!(read(&client).unwrap(), 1);
    let event = kept.lock().unwrap().remove(0);
    let Argument::Fd(descriptor) = &event.args[0] else {
        panic!("{event:?}")
    };
    assert_eq!(text_of(descriptor), "text");
    let flags = rustix::io::fcntl_getfd(descriptor).unwrap();
    assert!(flags.contains(rustix::io::FdFlags::CLOEXEC));
}

#[test]
fn descriptors_may_run_ahead_of_their_events() {
    let (events, kept) = keeper();
    let (client, server, _) = bound(events);
    let files: Vec<File> = (0..40).map(|at| file(&at.to_string())).collect();
    let borrowed: Vec<BorrowedFd<'_>> = files.iter().map(|file| file.as_fd()).collect();
    let events = bytes(3, GAVE, &[]).repeat(40);
    // 20 with half of the first event, 20 with the rest.
    give(&server, &events[..4], &borrowed[..20]);
    assert!(would_block(read(&client)));
    give(&server, &events[4..], &borrowed[20..]);
    let mut count = 0;
    while count < 40 {
        count += read(&client).unwrap();
    }
    let texts: Vec<String> = kept
        .lock()
        .unwrap()
        .iter()
        .map(|event| match &event.args[0] {
            Argument::Fd(descriptor) => text_of(descriptor),
            other => panic!("{other:?}"),
        })
        .collect();
    let expected: Vec<String> = (0..40).map(|at| at.to_string()).collect();
    assert_eq!(texts, expected);
}

#[test]
fn more_descriptors_than_one_receive_has_come_in_one_reading() {
    let (events, kept) = keeper();
    let (client, server, _) = bound(events);
    let files: Vec<File> = (0..40).map(|at| file(&at.to_string())).collect();
    let borrowed: Vec<BorrowedFd<'_>> = files.iter().map(|file| file.as_fd()).collect();
    let events = bytes(3, GAVE, &[]).repeat(40);
    give(&server, &events[..1], &borrowed[..28]);
    give(&server, &events[1..], &borrowed[28..]);
    assert_eq!(read(&client).unwrap(), 40);
    assert_eq!(kept.lock().unwrap().len(), 40);
}

#[test]
fn descriptors_that_no_event_takes_wait_and_are_closed_at_the_end() {
    let (client, server, _) = bound(quiet());
    let (watch, end) = UnixStream::pair().unwrap();
    for _ in 0..3 {
        give(&server, &[3], &[end.as_fd(); 20]);
        assert!(would_block(read(&client)));
    }
    drop(end);
    assert!(!is_last(&watch));
    drop(client);
    assert!(is_last(&watch));
}

#[test]
fn a_descriptor_for_a_destroyed_object_is_closed_when_the_next_one_is_handed_out() {
    let (client, server, thing) = bound(quiet());
    let (watch, end) = UnixStream::pair().unwrap();
    let (events, kept) = keeper();
    make(&client, &thing, events).unwrap();
    client.destroy_object(&thing).unwrap();
    give(&server, &bytes(3, GAVE, &[]), &[end.as_fd()]);
    drop(end);
    assert!(would_block(read(&client)));
    give(&server, &bytes(4, 1, &[]), &[file("next").as_fd()]);
    assert_eq!(read(&client).unwrap(), 1);
    assert!(is_last(&watch));
    let Argument::Fd(next) = &kept.lock().unwrap()[0].args[0] else {
        panic!("no descriptor")
    };
    assert_eq!(text_of(next), "next");
}

#[test]
fn an_event_makes_an_object_with_the_data_that_are_returned() {
    let (part, kept) = keeper();
    let given = part.clone();
    let made = Arc::new(Mutex::new(None));
    let seen = made.clone();
    let (client, server, _) = bound(data(move |_, event| {
        let Argument::NewId(id) = &event.args[0] else {
            panic!("{event:?}")
        };
        *seen.lock().unwrap() = Some(id.clone());
        Some(given.clone())
    }));
    give(
        &server,
        &[bytes(3, MADE, &[0xFF00_0000]), bytes(0xFF00_0000, 0, &[8])].concat(),
        &[],
    );
    assert_eq!(read(&client).unwrap(), 2);
    let id = made.lock().unwrap().clone().unwrap();
    assert!(std::ptr::eq(id.interface(), &PART));
    assert!(Arc::ptr_eq(&client.get_data(id.clone()).unwrap(), &part));
    assert_eq!(client.info(id.clone()).unwrap().version, 3);
    let events = kept.lock().unwrap();
    assert_eq!(
        (&events[0].sender_id, &events[0].args[0]),
        (&id, &Argument::Uint(8))
    );
}

#[test]
fn a_callback_may_call_everything() {
    let done = Arc::new(Mutex::new(false));
    let seen = done.clone();
    let (client, server, thing) = bound(data(move |backend, event| {
        let thing = event.sender_id;
        let part = make(backend, &thing, quiet()).unwrap();
        backend.flush().unwrap();
        backend.info(part.clone()).unwrap();
        backend.get_data(thing.clone()).unwrap();
        backend.set_data(part.clone(), quiet()).unwrap();
        assert!(would_block(read(backend)));
        drop(backend.prepare_read());
        assert_eq!(backend.dispatch_inner_queue().unwrap(), 0);
        backend.destroy_object(&part).unwrap();
        send(backend, &thing, DESTROY, &[]).unwrap();
        assert!(backend.last_error().is_none());
        assert!(backend.downgrade().upgrade() == Some(backend.clone()));
        *seen.lock().unwrap() = true;
        None
    }));
    give(&server, &bytes(3, BLOB, &[0]), &[]);
    assert_eq!(read(&client).unwrap(), 1);
    assert!(*done.lock().unwrap());
    assert_eq!(client.info(thing).unwrap_err(), InvalidId);
    assert!(would_block(read(&client)));
}

#[test]
fn a_callback_that_panics_leaves_a_connection_that_goes_on() {
    let blobs = Arc::new(Mutex::new(0));
    let counted = blobs.clone();
    let (client, server, thing) = bound(data(move |_, event| match event.opcode {
        BLOB => {
            *counted.lock().unwrap() += 1;
            None
        }
        MADE => panic!("no"),
        _ => panic!("nor this"),
    }));
    give(&server, &bytes(3, MADE, &[0xFF00_0000]), &[]);
    give(&server, &bytes(3, BLOB, &[0]), &[]);
    give(&server, &raw(3, VALUES, &[0; 24]), &[]);
    give(&server, &bytes(3, BLOB, &[0]), &[]);
    // What came with it is handed out, too: poll tells of it no more. The first panic goes on.
    assert_eq!(panic_of(|| read(&client)), "no");
    assert_eq!(*blobs.lock().unwrap(), 2);
    assert!(would_block(read(&client)));
    // The object is there, and has no data that take events.
    give(&server, &bytes(0xFF00_0000, 0, &[8]), &[]);
    assert!(panic_of(|| read(&client)).starts_with("Received an event for an object without data"));
    send(&client, &thing, WRITE, &[Argument::Str(None)]).unwrap();
    assert!(client.flush().is_ok() && would_block(read(&client)));
}

#[test]
fn data_that_are_missing_or_not_expected_panic() {
    let (client, server, _) = bound(data(|_, event| match event.opcode {
        MADE => None,
        _ => Some(quiet()),
    }));
    give(&server, &bytes(3, MADE, &[0xFF00_0000]), &[]);
    let text = panic_of(|| read(&client));
    assert_eq!(
        text,
        "Callback creating object part@4278190080 did not provide any object data."
    );
    give(&server, &bytes(3, BLOB, &[0]), &[]);
    let text = panic_of(|| read(&client));
    assert_eq!(
        text,
        "An object data was returned from a callback not creating any object"
    );
    assert!(would_block(read(&client)));
}

// ======== Objects

#[test]
fn an_object_has_data_within_the_event_that_makes_it() {
    let found = Arc::new(Mutex::new(Vec::new()));
    let kept = found.clone();
    let (client, server, _) = bound(data(move |client, event| {
        let [Argument::NewId(made)] = &event.args[..] else {
            panic!("an event: {event:?}")
        };
        let text = client.get_data(made.clone()).map(|it| format!("{it:?}"));
        kept.lock().unwrap().push((made.clone(), text));
        Some(quiet())
    }));
    give(&server, &bytes(3, MADE, &[0xFF00_0000]), &[]);
    assert_eq!(read(&client).unwrap(), 1);
    let (made, text) = found.lock().unwrap().remove(0);
    assert_eq!(text.as_deref(), Ok("MissingData"));
    let text = client.get_data(made).map(|it| format!("{it:?}"));
    assert_eq!(text.as_deref(), Ok("ObjectData { .. }"));
}

#[test]
fn an_object_is_told_once_that_it_was_destroyed() {
    let (client, server, thing) = bound(quiet());
    let (by_call, by_request) = (quiet(), quiet());
    let (one, two) = (
        make(&client, &thing, by_call.clone()).unwrap(),
        make(&client, &thing, by_request.clone()).unwrap(),
    );
    client.destroy_object(&one).unwrap();
    assert_eq!(client.destroy_object(&one), Err(InvalidId));
    send(&client, &two, DESTROY, &[]).unwrap();
    assert_eq!(send(&client, &two, DESTROY, &[]), Err(InvalidId));
    assert_eq!(by_call.destroyed(), std::slice::from_ref(&one));
    assert_eq!(by_request.destroyed(), std::slice::from_ref(&two));
    // By an event.
    let by_event = data(|_, _| None);
    let (client_two, server_two, thing_two) = bound(by_event.clone());
    give(&server_two, &bytes(3, DONE, &[]), &[]);
    assert_eq!(read(&client_two).unwrap(), 1);
    assert_eq!(by_event.destroyed(), [thing_two]);
    give(
        &server,
        &[bytes(1, 1, &[4]), bytes(1, 1, &[5])].concat(),
        &[],
    );
    assert!(would_block(read(&client)));
    assert_eq!(
        (by_call.destroyed().len(), by_request.destroyed().len()),
        (1, 1)
    );
}

#[test]
fn data_stay_until_the_number_is_free() {
    let (client, server, thing) = bound(quiet());
    let given = quiet();
    let weak = Arc::downgrade(&given);
    let part = make(&client, &thing, given).unwrap();
    client.destroy_object(&part).unwrap();
    assert_eq!(client.info(part.clone()).unwrap_err(), InvalidId);
    assert!(client.get_data(part.clone()).is_ok());
    assert_eq!(
        send(&client, &thing, TAKE, &[Argument::Object(part.clone())]),
        Err(InvalidId)
    );
    give(&server, &bytes(1, 1, &[4]), &[]);
    assert!(would_block(read(&client)));
    assert_eq!(client.get_data(part).err(), Some(InvalidId));
    assert!(weak.upgrade().is_none());
}

#[test]
fn the_data_of_many_objects_leave_with_their_numbers() {
    let (client, server, thing) = bound(quiet());
    let mut kept: Vec<Weak<_>> = Vec::new();
    for round in 0..10 {
        let given: Vec<_> = (0..500).map(|_| quiet()).collect();
        kept.extend(given.iter().map(Arc::downgrade));
        let parts: Vec<ObjectId> = given
            .into_iter()
            .map(|data| make(&client, &thing, data).unwrap())
            .collect();
        for part in &parts {
            send(&client, part, DESTROY, &[]).unwrap();
        }
        client.flush().unwrap();
        take(&server, 500 * (12 + 8));
        let freed: Vec<u8> = parts
            .iter()
            .flat_map(|part| bytes(1, 1, &[part.protocol_id()]))
            .collect();
        give(&server, &freed, &[]);
        while !would_block(read(&client)) {}
        let left = kept.iter().filter(|weak| weak.upgrade().is_some()).count();
        assert_eq!(left, 0, "in round {round}");
    }
}

#[test]
fn data_leave_when_the_server_takes_the_number() {
    let kept: Arc<Mutex<Vec<Weak<dyn ObjectData>>>> = Arc::default();
    let made = Arc::new(Mutex::new(None));
    let (keeps, seen) = (kept.clone(), made.clone());
    let (client, server, _) = bound(data(move |_, event| {
        let Argument::NewId(id) = &event.args[0] else {
            panic!("{event:?}")
        };
        *seen.lock().unwrap() = Some(id.clone());
        let given: Arc<dyn ObjectData> = quiet();
        keeps.lock().unwrap().push(Arc::downgrade(&given));
        Some(given)
    }));
    let is_kept = |at: usize| kept.lock().unwrap()[at].upgrade().is_some();
    give(&server, &bytes(3, MADE, &[0xFF00_0000]), &[]);
    assert_eq!(read(&client).unwrap(), 1);
    let first = made.lock().unwrap().take().unwrap();
    client.destroy_object(&first).unwrap();
    assert!(is_kept(0));
    give(&server, &bytes(3, MADE, &[0xFF00_0000]), &[]);
    assert_eq!(read(&client).unwrap(), 1);
    assert!(!is_kept(0) && is_kept(1));
    let second = made.lock().unwrap().take().unwrap();
    client.destroy_object(&second).unwrap();
    give(&server, &bytes(1, 1, &[0xFF00_0000]), &[]);
    assert!(would_block(read(&client)));
    assert!(!is_kept(1));
}

#[test]
fn data_can_be_replaced() {
    let (client, _server, thing) = bound(quiet());
    let (old, new) = (quiet(), quiet());
    let weak = Arc::downgrade(&old);
    let part = make(&client, &thing, old).unwrap();
    client.set_data(part.clone(), new.clone()).unwrap();
    assert!(weak.upgrade().is_none());
    client.destroy_object(&part).unwrap();
    assert_eq!(new.destroyed(), [part]);
    assert!(client.set_data(ObjectId::null(), quiet()).is_err());
}

#[test]
fn an_id_names_no_later_object() {
    let (client, server, thing) = bound(quiet());
    let old = make(&client, &thing, quiet()).unwrap();
    send(&client, &old, DESTROY, &[]).unwrap();
    give(&server, &bytes(1, 1, &[4]), &[]);
    assert!(would_block(read(&client)));
    let new = make(&client, &thing, quiet()).unwrap();
    assert_eq!(new.protocol_id(), old.protocol_id());
    assert_ne!(new, old);
    assert_eq!(client.info(old.clone()).unwrap_err(), InvalidId);
    assert_eq!(client.get_data(old).err(), Some(InvalidId));
}

#[test]
fn an_object_keeps_the_static_that_it_was_made_with() {
    static SAME_PART: Interface = interface(
        "part",
        &[MessageDesc {
            is_destructor: true,
            ..message("destroy", &[])
        }],
        &[message("ping", &[ArgumentType::Uint])],
    );
    let (events, kept) = keeper();
    let (client, server, thing) = bound(quiet());
    let request = message!(thing, MAKE, [Argument::NewId(ObjectId::null())]);
    let part = client
        .send_request(request, Some(events), Some((&SAME_PART, 3)))
        .unwrap();
    assert!(std::ptr::eq(part.interface(), &SAME_PART));
    assert!(std::ptr::eq(
        client.info(part).unwrap().interface,
        &SAME_PART
    ));
    give(&server, &bytes(4, 0, &[8]), &[]);
    assert_eq!(read(&client).unwrap(), 1);
    assert!(std::ptr::eq(
        kept.lock().unwrap()[0].sender_id.interface(),
        &SAME_PART
    ));
}

// Where objects have pointers, an id of another connection is refused (`tests/pointers`).
#[cfg(not(feature = "client_system"))]
#[test]
fn the_interface_of_an_object_is_its_own_whoever_asks() {
    static SAME_PART: Interface = interface("part", &[], &[]);
    let (client, _server, thing) = bound(quiet());
    let (other, _other_server, other_thing) = bound(quiet());
    let part = make(&client, &thing, quiet()).unwrap();
    let request = message!(other_thing, MAKE, [Argument::NewId(ObjectId::null())]);
    let same = other
        .send_request(request, Some(quiet()), Some((&SAME_PART, 3)))
        .unwrap();
    assert_eq!(part, same);
    let found = [client.info(same), other.info(part)].map(|info| info.unwrap().interface);
    assert!(std::ptr::eq(found[0], &PART) && std::ptr::eq(found[1], &SAME_PART));
}

#[test]
fn the_display_has_data_and_cannot_be_destroyed() {
    let (client, _server, _) = bound(quiet());
    assert!(client.get_data(client.display_id()).is_ok());
    assert_eq!(client.destroy_object(&client.display_id()), Err(InvalidId));
}

// ======== How a connection ends

#[test]
fn an_error_of_the_server_ends_the_connection() {
    let (client, server, _) = bound(quiet());
    let mut body = [3_u32.to_ne_bytes(), 7_u32.to_ne_bytes()].concat();
    body.extend(run(b"wrong\0"));
    give(&server, &raw(1, 0, &body), &[]);
    let Err(WaylandError::Protocol(error)) = read(&client) else {
        panic!("no protocol error")
    };
    let ProtocolError {
        code,
        object_id,
        object_interface,
        message,
    } = error;
    assert_eq!(
        (code, object_id, &*object_interface, &*message),
        (7, 3, "thing", "wrong")
    );
    for error in [
        client.last_error().unwrap(),
        client.flush().unwrap_err(),
        read(&client).unwrap_err(),
    ] {
        assert_eq!(
            error.to_string(),
            "Protocol error 7 on object thing@3: wrong"
        );
    }
}

#[test]
fn bytes_that_are_no_message_end_the_connection() {
    let (client, server, _) = bound(quiet());
    give(&server, &bytes(77, 0, &[]), &[]);
    assert!(matches!(read(&client), Err(WaylandError::Protocol(_))));
}

#[test]
fn nothing_is_received_after_an_error() {
    let (client, server, _) = bound(quiet());
    give(&server, &bytes(77, 0, &[]), &[]);
    assert!(matches!(read(&client), Err(WaylandError::Protocol(_))));
    // What the server sends then fills the socket, and not this process.
    server.set_nonblocking(true).unwrap();
    while (&server).write(&[0; 4096]).is_ok() {}
    for _ in 0..100 {
        assert!(matches!(read(&client), Err(WaylandError::Protocol(_))));
    }
    let full = (&server).write(&[0; 4096]).unwrap_err();
    assert_eq!(full.kind(), std::io::ErrorKind::WouldBlock);
}

#[test]
fn events_before_the_end_are_handed_out() {
    let (events, kept) = keeper();
    let (client, server, _) = bound(events);
    give(&server, &bytes(3, BLOB, &[0]), &[]);
    drop(server);
    assert_eq!(read(&client).unwrap(), 1);
    assert_eq!(kept.lock().unwrap().len(), 1);
    let error = read(&client).unwrap_err();
    assert!(
        matches!(&error, WaylandError::Io(error) if error.kind() == std::io::ErrorKind::BrokenPipe),
        "{error:?}"
    );
    assert!(client.last_error().is_some());
}

#[test]
fn a_send_to_a_closed_socket_ends_the_connection() {
    let (client, server, thing) = bound(quiet());
    let (watch, end) = UnixStream::pair().unwrap();
    drop(server);
    send(&client, &thing, GIVE, &[Argument::Fd(end.as_raw_fd())]).unwrap();
    drop(end);
    for _ in 0..2 {
        let error = client.flush().unwrap_err();
        assert!(
            matches!(&error, WaylandError::Io(error) if error.kind() == std::io::ErrorKind::BrokenPipe),
            "{error:?}"
        );
    }
    // It is no error to send more, and nothing is kept open for it.
    let _ = make(&client, &thing, quiet()).unwrap();
    drop(client);
    assert!(is_last(&watch));
}

#[test]
fn a_reading_says_that_its_last_callback_has_ended_the_connection() {
    let (client, server, _) = bound(data(|client, event| {
        send(client, &event.sender_id, GIVE, &[Argument::Fd(-1)]).unwrap();
        None
    }));
    give(&server, &raw(3, BLOB, &run(b"")), &[]);
    let error = read(&client).unwrap_err();
    assert!(
        matches!(&error, WaylandError::Io(error) if error.kind() != std::io::ErrorKind::WouldBlock),
        "{error:?}"
    );
}

#[test]
fn a_backend_that_is_dropped_closes_what_it_has() {
    let (client, server, thing) = bound(quiet());
    let weak = client.downgrade();
    let (sent, end) = UnixStream::pair().unwrap();
    let (came, other_end) = UnixStream::pair().unwrap();
    send(&client, &thing, GIVE, &[Argument::Fd(end.as_raw_fd())]).unwrap();
    // Half of an event, with its descriptor.
    give(&server, &bytes(3, GAVE, &[])[..4], &[other_end.as_fd()]);
    assert!(would_block(read(&client)));
    drop((end, other_end));
    assert!(!is_last(&sent) && !is_last(&came));
    drop((client, thing));
    assert!(weak.upgrade().is_none());
    assert!(is_last(&sent) && is_last(&came) && is_last(&server));
}

// ======== Threads

#[test]
fn the_last_of_several_readers_reads_for_all() {
    let (events, kept) = keeper();
    let (client, server, _) = bound(events);
    let guards: Vec<_> = (0..3).map(|_| client.prepare_read().unwrap()).collect();
    give(&server, &bytes(3, BLOB, &[0]).repeat(5), &[]);
    let (told, counts) = mpsc::channel();
    let last = client.prepare_read().unwrap();
    let threads: Vec<_> = guards
        .into_iter()
        .map(|guard| {
            let told = told.clone();
            thread::spawn(move || told.send(guard.read().unwrap()).unwrap())
        })
        .collect();
    assert!(
        counts.recv_timeout(Duration::from_millis(100)).is_err(),
        "they wait"
    );
    assert!(kept.lock().unwrap().is_empty());
    assert_eq!(last.read().unwrap(), 5);
    threads
        .into_iter()
        .for_each(|thread| thread.join().unwrap());
    assert_eq!(counts.try_iter().collect::<Vec<_>>(), [0, 0, 0]);
    assert_eq!(kept.lock().unwrap().len(), 5);
}

#[test]
fn readers_go_on_if_the_last_one_gives_up() {
    let (client, server, _) = bound(quiet());
    let (one, two) = (
        client.prepare_read().unwrap(),
        client.prepare_read().unwrap(),
    );
    let thread = thread::spawn(move || one.read());
    thread::sleep(Duration::from_millis(50));
    assert!(!thread.is_finished(), "it waits");
    drop(two);
    assert_eq!(thread.join().unwrap().unwrap(), 0);
    drop(server);
}

#[test]
fn a_reader_beside_one_that_reads_waits_until_it_has_ended() {
    let (begun, begins) = mpsc::channel();
    let (go, goes) = mpsc::channel::<()>();
    let (begun, goes) = (Mutex::new(begun), Mutex::new(goes));
    let (client, server, thing) = bound(data(move |_, _| {
        begun.lock().unwrap().send(()).unwrap();
        goes.lock().unwrap().recv().unwrap();
        None
    }));
    give(&server, &bytes(3, BLOB, &[0]), &[]);
    let reader = client.clone();
    let first = thread::spawn(move || read(&reader));
    begins.recv().unwrap();
    // The callback is running: another thread may send, and its reading waits.
    send(&client, &thing, WRITE, &[Argument::Str(None)]).unwrap();
    client.flush().unwrap();
    let reader = client.clone();
    let second = thread::spawn(move || {
        let is_prepared = reader.prepare_read().is_some();
        reader.dispatch_inner_queue().unwrap();
        (is_prepared, read(&reader))
    });
    thread::sleep(Duration::from_millis(50));
    assert!(!second.is_finished());
    go.send(()).unwrap();
    assert_eq!(first.join().unwrap().unwrap(), 1);
    // What was read may be its own. When it has looked, a reading finds nothing.
    let (is_prepared, read) = second.join().unwrap();
    assert!(!is_prepared && would_block(read));
}

#[test]
fn a_reading_is_prepared_when_no_other_thread_reads() {
    let (begun, begins) = mpsc::channel();
    let (go, goes) = mpsc::channel::<()>();
    let (begun, goes) = (Mutex::new(begun), Mutex::new(goes));
    let handed_out = Arc::new(Mutex::new(0));
    let counted = handed_out.clone();
    let (client, server, _) = bound(data(move |client, _| {
        // The thread that reads does not wait for itself.
        drop(client.prepare_read().unwrap());
        let mut count = counted.lock().unwrap();
        *count += 1;
        if *count == 1 {
            drop(count);
            begun.lock().unwrap().send(()).unwrap();
            goes.lock().unwrap().recv().unwrap();
        }
        None
    }));
    give(&server, &bytes(3, BLOB, &[0]).repeat(2), &[]);
    let reader = client.clone();
    let first = thread::spawn(move || read(&reader));
    begins.recv().unwrap();
    let second = thread::spawn(move || {
        assert!(client.prepare_read().is_none());
        client.dispatch_inner_queue().unwrap();
        let guard = client.prepare_read().unwrap();
        // If the events had not been handed out yet, neither would poll tell of them.
        let count = *handed_out.lock().unwrap();
        drop(guard);
        count
    });
    thread::sleep(Duration::from_millis(50));
    assert!(!second.is_finished(), "it waits");
    go.send(()).unwrap();
    assert_eq!(second.join().unwrap(), 2);
    assert_eq!(first.join().unwrap().unwrap(), 2);
}

#[test]
fn several_readers_take_each_event_once() {
    const EVENTS: usize = 2000;
    let (events, kept) = keeper();
    let (client, server, thing) = bound(events);
    let is_done = || kept.lock().unwrap().len() == EVENTS;
    thread::scope(|scope| {
        for _ in 0..4 {
            scope.spawn(|| {
                while !is_done() {
                    let Some(guard) = client.prepare_read() else {
                        client.dispatch_inner_queue().unwrap();
                        continue;
                    };
                    let ready = PollFd::from_borrowed_fd(client.poll_fd(), PollFlags::IN);
                    if poll(&mut [ready], 20).unwrap() == 0 {
                        continue; // and give the reading up
                    }
                    let read = guard.read();
                    assert!(read.is_ok() || would_block(read));
                }
            });
        }
        scope.spawn(|| {
            while !is_done() {
                send(&client, &thing, WRITE, &[Argument::Str(None)]).unwrap();
                assert!(client.flush().is_ok() || client.last_error().is_none());
                thread::yield_now();
            }
        });
        scope.spawn(|| {
            let mut bytes = [0; 4096];
            server
                .set_read_timeout(Some(Duration::from_millis(20)))
                .unwrap();
            while !is_done() {
                let _ = (&server).read(&mut bytes);
            }
        });
        for number in 0..EVENTS as u32 {
            give(&server, &bytes(3, BLOB, &[4, number]), &[]);
            if number % 50 == 0 {
                thread::sleep(Duration::from_millis(1));
            }
        }
    });
    for (number, event) in kept.lock().unwrap().iter().enumerate() {
        let expected = (number as u32).to_ne_bytes().to_vec();
        assert_eq!(event.args[0], Argument::Array(Box::new(expected)));
    }
}

#[test]
fn handles_can_be_sent_and_shared() {
    fn is_shared<T: Send + Sync>() {}
    is_shared::<Backend>();
    is_shared::<wayland_backend::client::WeakBackend>();
    is_shared::<wayland_backend::client::ReadEventsGuard>();
    is_shared::<ObjectId>();
    is_shared::<Arc<dyn ObjectData>>();
}

#[test]
fn many_threads_send_at_once() {
    let (client, server, thing) = bound(quiet());
    thread::scope(|scope| {
        for _ in 0..4 {
            scope.spawn(|| {
                for _ in 0..250 {
                    let part = make(&client, &thing, quiet()).unwrap();
                    send(&client, &part, DESTROY, &[]).unwrap();
                }
            });
        }
    });
    let reader = thread::spawn(move || take(&server, 1000 * (12 + 8)));
    while would_block(client.flush()) {
        thread::yield_now();
    }
    reader.join().unwrap();
}
