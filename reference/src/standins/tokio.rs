//! Stand-in for the crate `tokio`. No socket is opened and no task is run: the driver
//! calls `handle_frame` and `push_pending` itself. Each function here refuses or does
//! nothing.

use std::future::Future;
use std::marker::PhantomData;

pub fn spawn<F: Future>(future: F) -> task::JoinHandle<F::Output> {
    drop(future);
    task::JoinHandle(PhantomData)
}

/// Both arms have to type-check; neither is ever reached, since `bind` refuses.
macro_rules! select {
    ($a:pat = $first:expr => $on_first:block $b:pat = $second:expr => $on_second:expr $(,)?) => {{
        let $b = $second.await;
        let $a = $first.await;
        if true { $on_first } else { $on_second }
    }};
}
pub(crate) use select;

pub mod task {
    use std::marker::PhantomData;

    pub struct JoinHandle<T>(pub PhantomData<T>);

    impl<T> JoinHandle<T> {
        pub fn abort(&self) {}
    }
}

pub mod time {
    use std::time::Duration;

    pub async fn timeout<F>(_limit: Duration, future: F) -> Result<(), ()> {
        drop(future);
        Ok(())
    }
}

pub mod sync {
    pub struct Notify;

    impl Notify {
        pub fn new() -> Self {
            Notify
        }

        pub async fn notified(&self) {}

        pub fn notify_waiters(&self) {}
    }
}

pub mod net {
    use std::io;
    use std::net::SocketAddr;

    pub struct TcpListener;
    pub struct TcpStream;

    fn no_sockets<T>() -> io::Result<T> {
        Err(io::Error::new(io::ErrorKind::Unsupported, "the reference runs open no socket"))
    }

    impl TcpListener {
        pub async fn bind(_address: &str) -> io::Result<Self> {
            no_sockets()
        }

        pub fn local_addr(&self) -> io::Result<SocketAddr> {
            no_sockets()
        }

        pub async fn accept(&self) -> io::Result<(TcpStream, SocketAddr)> {
            no_sockets()
        }
    }
}

pub mod io {
    use super::net::TcpStream;
    use crate::standins::bytes::BytesMut;
    use std::io;

    pub trait AsyncReadExt {
        async fn read_buf(&mut self, into: &mut BytesMut) -> io::Result<usize>;
    }

    pub trait AsyncWriteExt {
        async fn write_all(&mut self, bytes: &[u8]) -> io::Result<()>;
        async fn flush(&mut self) -> io::Result<()>;
    }

    impl AsyncReadExt for TcpStream {
        async fn read_buf(&mut self, _into: &mut BytesMut) -> io::Result<usize> {
            Ok(0)
        }
    }

    impl AsyncWriteExt for TcpStream {
        async fn write_all(&mut self, _bytes: &[u8]) -> io::Result<()> {
            Ok(())
        }

        async fn flush(&mut self) -> io::Result<()> {
            Ok(())
        }
    }
}
