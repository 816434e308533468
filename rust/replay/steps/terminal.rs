//! The terminal of `--step`: keys as they are pressed, a screen of its own, and its settings put back on every way out. The only module with
//! `unsafe`: it calls the C library, with Linux's structures and numbers.
#![allow(unsafe_code)]

use crate::descriptor::Descriptor;
use std::ffi::{c_int, c_short, c_uint, c_ulong, c_void};
use std::io::{self, ErrorKind, IsTerminal, Read, Write};
use std::os::fd::AsRawFd;
use std::os::unix::net::UnixStream;
use std::panic;
use std::sync::atomic::{AtomicBool, Ordering};
use std::sync::OnceLock;

/// Standard input and output.
const INPUT: c_int = 0;
const OUTPUT: c_int = 1;

/// To the alternate screen, without cursor and without wrapping at the right edge; and back.
const ENTER: &[u8] = b"\x1b[?1049h\x1b[?25l\x1b[?7l";
const LEAVE: &[u8] = b"\x1b[?7h\x1b[?25h\x1b[?1049l";

/// The settings of a terminal.
#[derive(Clone, Copy)]
#[repr(C)]
struct Termios {
    input: c_uint,
    output: c_uint,
    control: c_uint,
    local: c_uint,
    line: u8,
    characters: [u8; 32],
    input_speed: c_uint,
    output_speed: c_uint,
}

/// Its size in characters and in points.
#[derive(Default)]
#[repr(C)]
struct WindowSize {
    rows: u16,
    columns: u16,
    points: [u16; 2],
}

/// A descriptor that is waited for.
#[repr(C)]
struct Polled {
    descriptor: c_int,
    events: c_short,
    found: c_short,
}

// local settings: whole lines, echo, and keys that edit a line
const ICANON: c_uint = 0o2;
const ECHO: c_uint = 0o10;
const ECHONL: c_uint = 0o100;
const IEXTEN: c_uint = 0o100_000;
// places among the characters: how long, and for how many, a read waits
const VTIME: usize = 5;
const VMIN: usize = 6;
const TCSANOW: c_int = 0;
const TCIFLUSH: c_int = 0;
const TIOCGWINSZ: c_ulong = 0x5413;
const POLLIN: c_short = 1;

const SIGHUP: c_int = 1;
const SIGINT: c_int = 2;
const SIGQUIT: c_int = 3;
const SIGTERM: c_int = 15;
const SIGCONT: c_int = 18;
const SIGTSTP: c_int = 20;
const SIGWINCH: c_int = 28;
const SIG_DFL: usize = 0;
const SIG_IGN: usize = 1;

extern "C" {
    fn tcgetattr(descriptor: c_int, settings: *mut Termios) -> c_int;
    fn tcsetattr(descriptor: c_int, when: c_int, settings: *const Termios) -> c_int;
    fn tcflush(descriptor: c_int, queue: c_int) -> c_int;
    fn ioctl(descriptor: c_int, request: c_ulong, ...) -> c_int;
    fn poll(polled: *mut Polled, count: c_ulong, milliseconds: c_int) -> c_int;
    fn signal(number: c_int, handler: usize) -> usize;
    fn raise(number: c_int) -> c_int;
    fn write(descriptor: c_int, bytes: *const c_void, count: usize) -> isize;
}

// What signal handlers use. They call only what may be called in one: write, tcsetattr, signal and raise.
/// The settings as they were found.
static FOUND: OnceLock<Termios> = OnceLock::new();
/// Whether the terminal is taken over now.
static TAKEN: AtomicBool = AtomicBool::new(false);
/// Where a signal is told to whoever waits.
static WAKE: OnceLock<UnixStream> = OnceLock::new();

/// What a wait ended with.
pub enum Heard {
    /// So many bytes of keys.
    Keys(usize),
    /// The screen has to be drawn again.
    Redraw,
    /// The terminal is gone.
    Closed,
}

/// The terminal, taken over until it is dropped.
pub struct Terminal {
    input: Descriptor,
    output: Descriptor,
    woken: UnixStream,
}

/// Whether standard input and output both are a terminal that can move its cursor.
pub fn is_at_hand() -> bool {
    let term = std::env::var_os("TERM").unwrap_or_default();
    cfg!(target_os = "linux")
        && io::stdin().is_terminal()
        && io::stdout().is_terminal()
        && !term.is_empty()
        && term != "dumb"
}

impl Terminal {
    pub fn open() -> io::Result<Self> {
        let (woken, wake) = UnixStream::pair()?;
        wake.set_nonblocking(true)?;
        woken.set_nonblocking(true)?;
        let terminal = Terminal {
            input: Descriptor::input()?,
            output: Descriptor::output()?,
            woken,
        };
        let found = found()?;
        FOUND.get_or_init(|| found);
        WAKE.get_or_init(|| wake);
        let hook = panic::take_hook();
        panic::set_hook(Box::new(move |info| {
            put_back();
            hook(info);
        }));
        for number in [SIGHUP, SIGINT, SIGQUIT, SIGTERM] {
            catch(number, end);
        }
        for number in [SIGCONT, SIGTSTP, SIGWINCH] {
            catch(number, tell);
        }
        take()?;
        Ok(terminal)
    }

    /// Columns and rows.
    pub fn size(&self) -> (usize, usize) {
        let mut size = WindowSize::default();
        // SAFETY: the request writes such a structure, which is lent for the call.
        let code = unsafe { ioctl(OUTPUT, TIOCGWINSZ, &raw mut size) };
        match (code, size.columns, size.rows) {
            (0, 1.., 1..) => (size.columns.into(), size.rows.into()),
            _ => (80, 24),
        }
    }

    /// Fills the screen with these lines, which are as many and as long as it has room for.
    pub fn draw(&mut self, lines: &[String]) -> io::Result<()> {
        let frame = lines.join("\x1b[K\r\n");
        write!(self.output, "\x1b[H{frame}\x1b[J")
    }

    /// Waits for keys, or for a signal that concerns the screen.
    pub fn wait(&mut self, keys: &mut [u8]) -> io::Result<Heard> {
        loop {
            let [typed, woken] = poll_both(INPUT, self.woken.as_raw_fd())?;
            if woken {
                self.wake()?;
                return Ok(Heard::Redraw);
            }
            if typed {
                return match self.input.read(keys) {
                    Ok(0) => Ok(Heard::Closed),
                    Ok(count) => Ok(Heard::Keys(count)),
                    Err(error) if error.kind() == ErrorKind::Interrupted => continue,
                    // of a terminal that has hung up
                    Err(_) => Ok(Heard::Closed),
                };
            }
        }
    }

    /// Does what the signals ask for that were told.
    fn wake(&mut self) -> io::Result<()> {
        let mut signals = [0; 64];
        let count = self.woken.read(&mut signals)?;
        for number in &signals[..count] {
            match c_int::from(*number) {
                SIGTSTP => stop()?,
                SIGCONT => take()?,
                _ => {}
            }
        }
        Ok(())
    }
}

impl Drop for Terminal {
    fn drop(&mut self) {
        // SAFETY: numbers alone go in. What was typed and not read belongs to nobody.
        unsafe { tcflush(INPUT, TCIFLUSH) };
        put_back();
        reset(SIGTSTP);
    }
}

/// The settings as they are.
fn found() -> io::Result<Termios> {
    let mut settings = Termios {
        input: 0,
        output: 0,
        control: 0,
        local: 0,
        line: 0,
        characters: [0; 32],
        input_speed: 0,
        output_speed: 0,
    };
    // SAFETY: the structure is lent for the call, which writes it.
    succeeded(unsafe { tcgetattr(INPUT, &raw mut settings) })?;
    Ok(settings)
}

/// Takes the terminal over: each key is handed on at once and isn't echoed, and what is drawn goes to a screen of its own. Keys that send
/// a signal still do.
fn take() -> io::Result<()> {
    let Some(mut settings) = FOUND.get().copied() else {
        return Ok(());
    };
    settings.local &= !(ICANON | ECHO | ECHONL | IEXTEN);
    settings.characters[VMIN] = 1;
    settings.characters[VTIME] = 0;
    TAKEN.store(true, Ordering::SeqCst);
    // SAFETY: the structure is lent for the call, which reads it.
    succeeded(unsafe { tcsetattr(INPUT, TCSANOW, &raw const settings) })?;
    say(ENTER);
    Ok(())
}

/// Puts the terminal back as it was found, if it is taken over.
fn put_back() {
    if !TAKEN.swap(false, Ordering::SeqCst) {
        return;
    }
    say(LEAVE);
    if let Some(settings) = FOUND.get() {
        // SAFETY: the structure is lent for the call, which reads it.
        unsafe { tcsetattr(INPUT, TCSANOW, settings) };
    }
}

/// Stops as the shell asks, with the terminal put back, and goes on when it lets us.
fn stop() -> io::Result<()> {
    put_back();
    // SAFETY: numbers alone go in.
    unsafe {
        signal(SIGTSTP, SIG_DFL);
        raise(SIGTSTP);
    }
    catch(SIGTSTP, tell);
    take()
}

/// Ends by a signal, with the terminal put back.
extern "C" fn end(number: c_int) {
    put_back();
    // SAFETY: numbers alone go in.
    unsafe {
        signal(number, SIG_DFL);
        raise(number);
    }
}

/// Tells a signal to whoever waits. If there is no room, enough are told already.
extern "C" fn tell(number: c_int) {
    if let Some(wake) = WAKE.get() {
        let byte = number as u8;
        // SAFETY: one byte is lent for the call, which reads it.
        unsafe { write(wake.as_raw_fd(), (&raw const byte).cast(), 1) };
    }
}

/// Has a signal handled, unless it is ignored.
fn catch(number: c_int, handler: extern "C" fn(c_int)) {
    // SAFETY: the handler is a function of one number, which calls only what may be called in one.
    unsafe {
        if signal(number, handler as usize) == SIG_IGN {
            signal(number, SIG_IGN);
        }
    }
}

/// Has a signal do what it does by itself, unless it is ignored.
fn reset(number: c_int) {
    // SAFETY: numbers alone go in.
    unsafe {
        if signal(number, SIG_DFL) == SIG_IGN {
            signal(number, SIG_IGN);
        }
    }
}

/// Writes straight to standard output.
fn say(bytes: &[u8]) {
    // SAFETY: the bytes are lent for the call, with their length. There is nobody to tell if they can't be written.
    unsafe { write(OUTPUT, bytes.as_ptr().cast(), bytes.len()) };
}

/// Waits until one of two descriptors has something to read, or is closed; which.
fn poll_both(one: c_int, other: c_int) -> io::Result<[bool; 2]> {
    let mut polled = [one, other].map(|descriptor| Polled {
        descriptor,
        events: POLLIN,
        found: 0,
    });
    // SAFETY: the structures are lent for the call, with their number.
    let code = unsafe { poll(polled.as_mut_ptr(), 2, -1) };
    match succeeded(code) {
        // by a signal's handler
        Err(error) if error.kind() == ErrorKind::Interrupted => Ok([false; 2]),
        Err(error) => Err(error),
        Ok(()) => Ok(polled.map(|polled| polled.found != 0)),
    }
}

fn succeeded(code: c_int) -> io::Result<()> {
    if code < 0 {
        return Err(io::Error::last_os_error());
    }
    Ok(())
}
