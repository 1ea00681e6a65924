//! A logger may call what logs.

use std::os::unix::net::UnixStream;
use std::sync::{mpsc, Arc, Mutex};
use std::thread;
use std::time::Duration;

use wayland_backend::client::{Backend, ObjectData, ObjectId};
use wayland_backend::message;
use wayland_backend::protocol::{Argument, Message};

type Call = Box<dyn Fn() + Send>;

/// What is called for each line, and the lines.
#[derive(Default)]
struct Logger {
    call: Mutex<Option<Call>>,
    lines: Mutex<Vec<String>>,
}

impl log::Log for Logger {
    fn enabled(&self, _: &log::Metadata<'_>) -> bool {
        true
    }

    fn log(&self, record: &log::Record<'_>) {
        self.lines.lock().unwrap().push(record.args().to_string());
        if let Some(call) = &*self.call.lock().unwrap() {
            call();
        }
    }

    fn flush(&self) {}
}

struct Nothing;

impl ObjectData for Nothing {
    fn event(
        self: Arc<Self>,
        _: &Backend,
        _: Message<ObjectId, std::os::fd::OwnedFd>,
    ) -> Option<Arc<dyn ObjectData>> {
        None
    }

    fn destroyed(&self, _: ObjectId) {}
}

/// What is logged by this call, which has to end.
fn logged(logger: &Logger, on_line: Call, call: impl FnOnce() + Send + 'static) -> Vec<String> {
    *logger.call.lock().unwrap() = Some(on_line);
    let (done, is_done) = mpsc::channel();
    thread::spawn(move || {
        call();
        done.send(()).unwrap();
    });
    is_done
        .recv_timeout(Duration::from_secs(10))
        .expect("the logger waits for a lock");
    *logger.call.lock().unwrap() = None;
    std::mem::take(&mut logger.lines.lock().unwrap())
}

#[test]
fn a_logger_may_call_what_logs() {
    let logger: &Logger = Box::leak(Box::default());
    log::set_logger(logger).unwrap();
    log::set_max_level(log::LevelFilter::Warn);
    let (ours, theirs) = UnixStream::pair().unwrap();
    let client = Backend::connect(ours).unwrap();
    let get = message!(client.display_id(), 1, [Argument::NewId(ObjectId::null())]);
    client
        .send_request(get, Some(Arc::new(Nothing)), None)
        .unwrap();
    // An error, by a flush and by a reading: it is logged once.
    drop(theirs);
    let (used, again) = (client.clone(), client.clone());
    let lines = logged(
        logger,
        Box::new(move || assert!(used.last_error().is_some())),
        move || {
            assert!(again.flush().is_err());
            assert!(again.prepare_read().unwrap().read().is_err());
        },
    );
    assert_eq!(lines.len(), 1, "{lines:?}");
    let client = Backend::connect(UnixStream::pair().unwrap().0).unwrap();
    let (used, again) = (client.clone(), client);
    let lines = logged(
        logger,
        Box::new(move || assert!(used.last_error().is_some())),
        move || assert!(again.prepare_read().unwrap().read().is_err()),
    );
    assert_eq!(lines.len(), 1, "{lines:?}");
}
