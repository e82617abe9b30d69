//! On which threads a connection is served. A large body or answer is for the thread for what is large, and so are connections that
//! have asked for nothing yet, of which any number may come and go. All other requests are for the threads for what is small.

use super::connection::{After, Connection};
use super::head::{Framing, Head, Refused};
use super::response::Response;
use crate::limits::SMALL;
use std::future::Future;
use std::io;

impl Connection {
    /// Serves a client that was let in on the thread for what is large.
    pub async fn serve(self) {
        // If it fails, the connection is as it was, only slower.
        let _ = self.stream.set_nodelay(true);
        // A client that has gone away is no error.
        let _ = self.begin().await;
    }

    async fn begin(mut self) -> io::Result<()> {
        match self.head().await? {
            Some(head) => {
                let small = self.app.workers.small.clone();
                small.spawn(async move { self.adopted()?.requests(head).await }).await?
            }
            None => Ok(()),
        }
    }

    async fn requests(mut self, first: Result<Head, Refused>) -> io::Result<()> {
        let mut next = Some(first);
        while let Some(head) = next {
            let head = match head {
                Ok(head) => head,
                Err(refused) => return self.refuse(refused).await,
            };
            let answered = match is_large(&head) {
                true => self.there(|connection| connection.answer(head)).await?,
                false => self.answer(head).await?,
            };
            self = answered.0;
            if answered.1 == After::Close {
                return self.close().await;
            }
            next = self.head().await?;
        }
        Ok(())
    }

    /// Sends an answer on the thread for what is large.
    pub(super) async fn send_there(
        self,
        response: Response,
        is_head: bool,
        is_1_1: bool,
        closes: bool,
    ) -> io::Result<Connection> {
        let send = move |mut connection: Connection| async move {
            connection.send(response, is_head, is_1_1, closes).await?;
            Ok((connection, ()))
        };
        Ok(self.there(send).await?.0)
    }

    /// Does something with the connection on the thread for what is large.
    async fn there<Done, Doing>(
        self,
        what: impl FnOnce(Connection) -> Doing + Send + 'static,
    ) -> io::Result<(Connection, Done)>
    where
        Done: Send + 'static,
        Doing: Future<Output = io::Result<(Connection, Done)>> + Send + 'static,
    {
        let large = self.app.workers.large.clone();
        let (connection, done) = large.spawn(async move { what(self.adopted()?).await }).await??;
        Ok((connection.adopted()?, done))
    }
}

/// Whether a request has a large body.
fn is_large(head: &Head) -> bool {
    match head.framing {
        Framing::Length(length) => length > SMALL as u64,
        Framing::Chunks => true,
    }
}
