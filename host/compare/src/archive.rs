//! The proved library, called through the program host/serve, which links the archive and stands at the other end of a pipe.

use std::env;
use std::io::{BufWriter, Read, Write};
use std::process::{Child, ChildStdin, ChildStdout, Command, Stdio};
use std::sync::{LazyLock, Mutex};

use crate::call::Call;
use crate::cases;

struct Server {
    requests: BufWriter<ChildStdin>,
    answers: ChildStdout,
    /// Kept so that the pipes stay open.
    _child: Child,
}

static SERVER: LazyLock<Mutex<Server>> = LazyLock::new(|| Mutex::new(start()));

/// Starts the program that CONCOURSEL_SERVE names, or the one that host/build made.
fn start() -> Server {
    let made = concat!(env!("CARGO_MANIFEST_DIR"), "/../../target/host/serve");
    let program = env::var("CONCOURSEL_SERVE").unwrap_or(made.into());
    let mut child = Command::new(&program)
        .stdin(Stdio::piped())
        .stdout(Stdio::piped())
        .spawn()
        .unwrap_or_else(|error| panic!("{program}: {error}; host/build makes it"));
    let requests = BufWriter::with_capacity(1 << 16, child.stdin.take().expect("a pipe"));
    Server { requests, answers: child.stdout.take().expect("a pipe"), _child: child }
}

/// What the server tells about a call besides the bytes.
pub struct Reply {
    pub answer: u64,
    /// For all the calls together.
    pub nanoseconds: u64,
    /// Touched by the one call, where no time was asked for.
    pub stack: u64,
}

/// Calls `times` times on fresh copies, or once for the stack if `times` is 0; None if there is no such entry.
/// Record and row are afterwards as the last call left them.
pub fn request(call: &Call, record: &mut [u8], row: &mut [u16], times: u32) -> Option<Reply> {
    let mut server = SERVER.lock().expect("one thread only");
    server.exchange(call, record, row, times).unwrap_or_else(|error| {
        panic!("the library's program ended: {error}; {call} on {}", crate::call::hex(record));
    })
}

impl Server {
    fn exchange(
        &mut self,
        call: &Call,
        record: &mut [u8],
        row: &mut [u16],
        times: u32,
    ) -> std::io::Result<Option<Reply>> {
        let (p, q, key) = call.numbers();
        self.requests.write_all(&[call.number()])?;
        for number in [p, q, key] {
            self.requests.write_all(&number.to_le_bytes())?;
        }
        for number in [times, record.len() as u32, row.len() as u32] {
            self.requests.write_all(&number.to_le_bytes())?;
        }
        self.requests.write_all(record)?;
        for place in row.iter() {
            self.requests.write_all(&place.to_le_bytes())?;
        }
        self.requests.flush()?;
        let mut answer = vec![0; 25 + record.len() + 2 * row.len()];
        self.answers.read_exact(&mut answer)?;
        let number = |at: usize| u64::from_le_bytes(answer[at..at + 8].try_into().expect("eight bytes"));
        record.copy_from_slice(&answer[25..25 + record.len()]);
        for (place, bytes) in row.iter_mut().zip(answer[25 + record.len()..].chunks(2)) {
            *place = u16::from_le_bytes([bytes[0], bytes[1]]);
        }
        let reply = Reply { answer: number(1), nanoseconds: number(9), stack: number(17) };
        Ok((answer[0] == 1).then_some(reply))
    }
}

/// Prints the entries that the library has; false if there are none.
pub fn print_entries() -> bool {
    let there: Vec<&str> =
        cases::ONE_OF_EACH.iter().filter(|call| request(call, &mut [], &mut [], 1).is_some()).map(Call::name).collect();
    println!("{} of {} entries: {}", there.len(), cases::ONE_OF_EACH.len(), there.join(" "));
    !there.is_empty()
}
