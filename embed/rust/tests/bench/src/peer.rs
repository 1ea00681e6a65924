//! A client and a server of one crate.

/// Makes a module with a pair of this crate.
macro_rules! peer {
    ($module:ident, $crate_name:ident) => {
        mod $module {
            use std::os::fd::{OwnedFd, RawFd};
            use std::os::unix::net::UnixStream;
            use std::sync::atomic::{AtomicU64, Ordering};
            use std::sync::{Arc, Mutex};

            use $crate_name::client::{self, WaylandError};
            use $crate_name::protocol::{
                AllowNull, Argument, ArgumentType, Interface, Message, MessageDesc,
            };
            use $crate_name::{message, server};

            use super::{Operation, Pair};

            const fn description(
                name: &'static str,
                signature: &'static [ArgumentType],
            ) -> MessageDesc {
                MessageDesc {
                    name,
                    signature,
                    since: 1,
                    is_destructor: false,
                    child_interface: None,
                    arg_interfaces: &[],
                }
            }

            static QUAD: Interface = Interface {
                name: "quad",
                version: 3,
                requests: &[
                    description("poke", &[ArgumentType::Int]),
                    MessageDesc {
                        child_interface: Some(&QUAD),
                        ..description("make", &[ArgumentType::NewId])
                    },
                    MessageDesc {
                        is_destructor: true,
                        ..description("destroy", &[])
                    },
                    MessageDesc {
                        arg_interfaces: &[&QUAD],
                        ..description(
                            "say",
                            &[
                                ArgumentType::Str(AllowNull::No),
                                ArgumentType::Object(AllowNull::Yes),
                            ],
                        )
                    },
                ],
                events: &[description("moved", &[ArgumentType::Int])],
                c_ptr: None,
            };

            /// Counts what happens to the objects of both sides.
            #[derive(Default)]
            struct Count(AtomicU64);

            impl Count {
                fn add(&self) {
                    self.0.fetch_add(1, Ordering::Relaxed);
                }
            }

            impl client::ObjectData for Count {
                fn event(
                    self: Arc<Self>,
                    _: &client::Backend,
                    _: Message<client::ObjectId, OwnedFd>,
                ) -> Option<Arc<dyn client::ObjectData>> {
                    self.add();
                    None
                }

                fn destroyed(&self, _: client::ObjectId) {
                    self.add();
                }
            }

            impl server::ObjectData<()> for Count {
                fn request(
                    self: Arc<Self>,
                    _: &server::Handle,
                    _: &mut (),
                    _: server::ClientId,
                    message: Message<server::ObjectId, OwnedFd>,
                ) -> Option<Arc<dyn server::ObjectData<()>>> {
                    self.add();
                    if message.opcode == 1 {
                        Some(self)
                    } else {
                        None
                    }
                }

                fn destroyed(
                    self: Arc<Self>,
                    _: &server::Handle,
                    _: &mut (),
                    _: server::ClientId,
                    _: server::ObjectId,
                ) {
                }
            }

            struct Global {
                count: Arc<Count>,
                bound: Mutex<Option<server::ObjectId>>,
            }

            impl server::GlobalHandler<()> for Global {
                fn bind(
                    self: Arc<Self>,
                    _: &server::Handle,
                    _: &mut (),
                    _: server::ClientId,
                    _: server::GlobalId,
                    object: server::ObjectId,
                ) -> Arc<dyn server::ObjectData<()>> {
                    *self.bound.lock().unwrap() = Some(object);
                    self.count.clone()
                }
            }

            struct Both {
                client: client::Backend,
                server: server::Backend<()>,
                count: Arc<Count>,
                proxy: client::ObjectId,
                resource: server::ObjectId,
                _idle: Vec<UnixStream>,
            }

            pub fn pair(idle: usize) -> Box<dyn Pair> {
                let count = Arc::new(Count::default());
                let server = server::Backend::new().unwrap();
                let global = Arc::new(Global {
                    count: count.clone(),
                    bound: Mutex::default(),
                });
                server
                    .handle()
                    .create_global::<()>(&QUAD, 3, global.clone());
                let connect = || {
                    let (ours, theirs) = UnixStream::pair().unwrap();
                    server.handle().insert_client(theirs, Arc::new(())).unwrap();
                    ours
                };
                let client = client::Backend::connect(connect()).unwrap();
                let idle = (0..idle).map(|_| connect()).collect();
                let new_id = || Argument::NewId(client::ObjectId::null());
                let get_registry = message!(client.display_id(), 1, [new_id()]);
                let registry = client
                    .send_request(get_registry, Some(count.clone()), None)
                    .unwrap();
                let name = Argument::Str(Some(Box::new(c"quad".into())));
                let bind = message!(
                    registry,
                    0,
                    [Argument::Uint(1), name, Argument::Uint(3), new_id()]
                );
                let proxy = client
                    .send_request(bind, Some(count.clone()), Some((&QUAD, 3)))
                    .unwrap();
                let mut pair = Both {
                    client,
                    server,
                    count,
                    resource: server::ObjectId::null(),
                    proxy,
                    _idle: idle,
                };
                pair.turn();
                pair.resource = global.bound.lock().unwrap().clone().unwrap();
                Box::new(pair)
            }

            impl Both {
                fn send(
                    &self,
                    object: &client::ObjectId,
                    opcode: u16,
                    arguments: &[Argument<client::ObjectId, RawFd>],
                ) {
                    let message = Message {
                        sender_id: object.clone(),
                        opcode,
                        args: arguments.into(),
                    };
                    self.client.send_request(message, None, None).unwrap();
                }

                fn make(
                    &self,
                    sender: client::ObjectId,
                    opcode: u16,
                    interface: &'static Interface,
                    version: u32,
                ) -> client::ObjectId {
                    let message =
                        message!(sender, opcode, [Argument::NewId(client::ObjectId::null())]);
                    let spec = Some((interface, version));
                    self.client
                        .send_request(message, Some(self.count.clone()), spec)
                        .unwrap()
                }

                fn read(&self) {
                    match self.client.prepare_read().unwrap().read() {
                        Ok(_) => {}
                        Err(WaylandError::Io(error))
                            if error.kind() == std::io::ErrorKind::WouldBlock => {}
                        Err(error) => panic!("{error}"),
                    }
                }

                fn serve(&mut self) {
                    self.server.dispatch_all_clients(&mut ()).unwrap();
                    self.server.flush(None).unwrap();
                }

                fn turn(&mut self) {
                    self.client.flush().unwrap();
                    self.serve();
                    self.read();
                }
            }

            impl Pair for Both {
                fn run(&mut self, operation: Operation, batch: u32) {
                    let display = self.client.display_id();
                    for number in 0..batch {
                        match operation {
                            Operation::Sync => {
                                self.make(display.clone(), 0, callback(), 1);
                            }
                            Operation::Request => {
                                self.send(&self.proxy, 0, &[Argument::Int(number as i32)]);
                            }
                            Operation::Text => {
                                let text = Argument::Str(Some(Box::new(c"some text".into())));
                                let object = Argument::Object(self.proxy.clone());
                                self.send(&self.proxy, 3, &[text, object]);
                            }
                            Operation::Life => {
                                let made = self.make(self.proxy.clone(), 1, &QUAD, 3);
                                self.send(&made, 2, &[]);
                            }
                            Operation::Event => {
                                let arguments = [Argument::Int(number as i32)];
                                let message = Message {
                                    sender_id: self.resource.clone(),
                                    opcode: 0,
                                    args: arguments.as_slice().into(),
                                };
                                self.server.handle().send_event(message).unwrap();
                            }
                        }
                    }
                    match operation {
                        Operation::Sync | Operation::Life => self.turn(),
                        Operation::Request | Operation::Text => {
                            self.client.flush().unwrap();
                            self.serve();
                        }
                        Operation::Event => {
                            self.server.flush(None).unwrap();
                            self.read();
                        }
                    }
                }

                fn seen(&self) -> u64 {
                    self.count.0.load(Ordering::Relaxed)
                }
            }

            /// The interface of callbacks, as wayland-client has a static of its own.
            fn callback() -> &'static Interface {
                static CALLBACK: Interface = Interface {
                    name: "wl_callback",
                    version: 1,
                    requests: &[],
                    events: &[MessageDesc {
                        is_destructor: true,
                        ..description("done", &[ArgumentType::Uint])
                    }],
                    c_ptr: None,
                };
                &CALLBACK
            }
        }
    };
}

pub(crate) use peer;
