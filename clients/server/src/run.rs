//! The server from its start to its end.

use crate::doors::places;
use crate::ending::{ending, End, Ending};
use crate::error::Error;
use crate::http::guard::{token_in, Guard};
use crate::http::reasons::Reasons;
use crate::http::{self, App};
use crate::hub::{self, listening};
use crate::limits::ANSWERS;
use crate::options::Options;
use crate::other::Other;
use crate::program::cache::Cache;
use crate::program::engine::Engine;
use crate::program::room::Room;
use crate::program::{self, Handle};
use crate::say;
use crate::store::{Store, Which};
use crate::threads::{runtime, Threads, Workers};
use std::io::ErrorKind;
use std::os::unix::fs::FileTypeExt;
use std::path::Path;
use std::sync::Arc;
use std::time::{Duration, Instant};
use tokio::net::TcpListener;
use tokio::runtime::{Builder, Handle as Thread};
use tokio::signal::unix::{signal, SignalKind};
use tokio::sync::watch;
use tokio::task::JoinHandle;
use tokio::time::timeout;

/// How long clients have at the end, and the program.
const FAREWELL: Duration = Duration::from_secs(4);
const LAST_ROUND: Duration = Duration::from_secs(2);

/// After how long a server that was to end is broken off, such as one that waits for a disk that hangs.
const LAST: Duration = Duration::from_secs(15);

/// How often it looks for a socket that isn't there yet.
const PAUSE: Duration = Duration::from_millis(50);

/// Serves until a signal comes, or until the program ends.
pub fn run(options: Options) -> Result<(), Error> {
    // SAFETY: a signal is set to be ignored before there is another thread. A file may then not grow over its limit, which
    // is an error of the write.
    unsafe { libc::signal(libc::SIGXFSZ, libc::SIG_IGN) };
    let threads = Threads::begin()?;
    // The program is of this thread, and its replies wait for no other task.
    let own = runtime(&mut Builder::new_current_thread())?;
    let done = own.block_on(serve(options, threads.workers()));
    threads.end();
    own.shutdown_background();
    done
}

/// What serves over HTTP, before there is a store.
struct Web {
    listener: TcpListener,
    guard: Guard,
}

async fn serve(options: Options, workers: Workers) -> Result<(), Error> {
    let mut signals = signals(&workers)?;
    let web = tokio::select! {
        web = web(&options, &workers) => web?,
        _ = signals.changed() => return Ok(()),
    };
    if options.new {
        let path = program::find(options.program.as_deref())?;
        tokio::select! {
            made = program::make(&path, &options.store, options.size.as_deref()) => made?,
            // A file that is half made is no store.
            _ = signals.changed() => return Ok(()),
        }
    }
    let is_other = tokio::select! {
        is_other = is_other(&options) => is_other?,
        _ = signals.changed() => return Ok(()),
    };
    if is_other {
        return serve_other(&options, &workers, web, signals).await;
    }
    if let Some(path) = &options.socket {
        // Before the store is opened, which may take a while.
        tokio::select! {
            free = listening::until_free(path, options.wait) => free?,
            _ = signals.changed() => return Ok(()),
        }
    }
    let path = program::find(options.program.as_deref())?;
    let program = tokio::select! {
        program = program::start(&path, &options.store, options.pump, options.wait) => program?,
        // It serves nobody yet, and the program can be killed at any time.
        _ = signals.changed() => return Ok(()),
    };
    program::remove_leftovers(&options.store);
    let (engine, store) = Engine::begin(program, Cache::new(options.cache)).await?;
    workers.large.spawn(store.history.clone().hand_news_on());
    let (end, ending) = ending();
    // Both doors are open before either is announced.
    let _listening = welcome(&options, &workers, store.clone(), ending.clone()).await?;
    let app = web.map(|web| welcome_web(&options, &workers, web, Which::Own(store), &ending));
    drop(ending);
    if let Some(path) = &options.socket {
        say::announce(&format!("{} is served at {}", options.store.display(), path.display()));
    }
    say::notify("READY=1");
    until_the_end(engine, end, signals, app).await
}

/// Whether the store is the socket of another server. One that isn't there is waited for, unless it must be a file: the
/// server whose socket it is may begin at the same time.
async fn is_other(options: &Options) -> Result<bool, Error> {
    let until = Instant::now() + options.wait;
    loop {
        match std::fs::metadata(&options.store) {
            Ok(found) => return Ok(found.file_type().is_socket()),
            Err(error) if error.kind() == ErrorKind::NotFound && options.socket.is_none() => {
                if Instant::now() >= until {
                    return Err(nothing_there(&options.store, error));
                }
                tokio::time::sleep(PAUSE).await;
            }
            // The program tells why it can't be opened.
            Err(_) => return Ok(false),
        }
    }
}

/// The error of a path at which nothing is: a store, or the socket of a hub, may be meant.
fn nothing_there(path: &Path, error: std::io::Error) -> Error {
    let to_do =
        "what to do: compare the path; if it is a file, `jpstore-cli new FILE` makes a store; if it is the socket \
                 of a hub, start that, or wait longer by `--wait SECONDS`";
    Error::new(format!("{}\n  {}", Error::of_path(path, error), program::as_called(to_do)))
}

/// Serves the store of another server over HTTP.
async fn serve_other(
    options: &Options,
    workers: &Workers,
    web: Option<Web>,
    mut signals: watch::Receiver<bool>,
) -> Result<(), Error> {
    let web = web.filter(|_| options.socket.is_none()).ok_or_else(|| {
        Error::new(format!(
            "{} is the socket of a hub already: a further socket is made for a file only",
            options.store.display()
        ))
    })?;
    let (mut end, ending) = ending();
    let app = welcome_web(options, workers, web, Which::Other(Arc::new(Other::at(&options.store))), &ending);
    drop(ending);
    say::notify("READY=1");
    // Only a signal ends it.
    let _ = signals.changed().await;
    say::notify("STOPPING=1");
    end.begin();
    app.reasons.end().await;
    end.all_done(FAREWELL).await;
    Ok(())
}

async fn web(options: &Options, workers: &Workers) -> Result<Option<Web>, Error> {
    let token = options.token_file.as_deref().map(token_in).transpose()?;
    let listen = match &options.listen {
        Some(listen) => listen,
        None => return Ok(None),
    };
    let (host, port) = http::listening::place(listen)?;
    let address = http::listening::address(&host, port, token.is_some())?;
    let listener = http::listening::at(address, options.wait, &workers.large).await?;
    Ok(Some(Web { listener, guard: Guard::new(token, options.origins.clone(), &host) }))
}

/// How many doors there are for clients.
fn doors(options: &Options) -> usize {
    usize::from(options.listen.is_some()) + usize::from(options.socket.is_some())
}

fn welcome_web(options: &Options, workers: &Workers, web: Web, which: Which, ending: &Ending) -> Arc<App> {
    let store = Store { which, answers: Room::of_bytes(ANSWERS) };
    let reasons = Reasons::new(&options.python, Thread::current(), ending.clone());
    let app = Arc::new(App::new(store, web.guard, reasons, options.patience, workers.clone()));
    let told = web.listener.local_addr().map_or_else(|_| String::new(), |address| format!("http://{address}/"));
    workers.large.spawn(http::serve(web.listener, app.clone(), places(doors(options)), ending.clone()));
    say::announce(&format!("{} is served at {told}", options.store.display()));
    app
}

async fn welcome(
    options: &Options,
    workers: &Workers,
    store: Handle,
    ending: Ending,
) -> Result<Option<listening::Listening>, Error> {
    let path = match &options.socket {
        Some(path) => path,
        None => return Ok(None),
    };
    let (listening, listener) = listening::Listening::at(path).await?;
    let _entered = workers.small.enter();
    let listener = tokio::net::UnixListener::from_std(listener).map_err(|error| Error::of_path(path, error))?;
    let served = hub::serve(listener, store, places(doors(options)), workers.large.clone(), ending);
    workers.small.spawn(served);
    Ok(Some(listening))
}

/// Whether a signal has come that ends the server. The thread of the program may wait for the disk, so another one takes it.
fn signals(workers: &Workers) -> Result<watch::Receiver<bool>, Error> {
    let told = |error| Error::new(format!("no signals can be taken: {error}"));
    let _entered = workers.small.enter();
    let mut interrupt = signal(SignalKind::interrupt()).map_err(told)?;
    let mut terminate = signal(SignalKind::terminate()).map_err(told)?;
    let (come, has_come) = watch::channel(false);
    tokio::spawn(async move {
        tokio::select! {
            _ = interrupt.recv() => (),
            _ = terminate.recv() => (),
        }
        come.send_replace(true);
        tokio::time::sleep(LAST).await;
        say::complain("the server is broken off, as a disk doesn't answer");
        // Nothing that was answered is lost.
        std::process::exit(1);
    });
    Ok(has_come)
}

/// Lets the engine work until it or a signal ends the server, and then ends all else.
async fn until_the_end(
    engine: Engine,
    mut end: End,
    mut signals: watch::Receiver<bool>,
    app: Option<Arc<App>>,
) -> Result<(), Error> {
    let (stop, stopped) = watch::channel(false);
    let mut engine = tokio::spawn(engine.run(stopped));
    let ended = tokio::select! {
        ended = &mut engine => Some(ended),
        _ = signals.changed() => None,
    };
    say::notify("STOPPING=1");
    end.begin();
    if let Some(app) = &app {
        app.reasons.end().await;
    }
    end.all_done(FAREWELL).await;
    let ended = match ended {
        Some(ended) => ended,
        None => {
            stop.send_replace(true);
            match timeout(LAST_ROUND, &mut engine).await {
                Ok(ended) => ended,
                Err(_) => return Err(hanging(engine).await),
            }
        }
    };
    ended.unwrap_or_else(|error| Err(Error::new(format!("the server failed: {error}"))))
}

/// Kills a program that doesn't end, which loses nothing that was answered.
async fn hanging(engine: JoinHandle<Result<(), Error>>) -> Error {
    engine.abort();
    // The program is killed when the engine is dropped.
    let _ = engine.await;
    Error::new("the program does not answer, and was killed")
}
