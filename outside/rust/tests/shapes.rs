//! How the cost of calls grows with a pool: instructions, at one size and at one 64 times as large.
//! This program runs itself once more, goes through the calls there one instruction at a time, and
//! counts them. Where the system forbids to trace a program, it fails.
#[cfg(target_os = "linux")]
mod calls;

#[cfg(target_os = "linux")]
mod counting {
    use std::ffi::{c_int, c_long, c_void};
    use std::io::Error;
    use std::os::unix::process::CommandExt;
    use std::process::{Child, Command, Stdio};
    use std::ptr::null_mut;

    const TRACE_ME: c_long = 0;
    const GO_ON: c_long = 7;
    const STEP: c_long = 9;
    /// The signal by which the calls say that one begins or ends.
    pub const MARK: c_int = 10;
    const TRAP: c_int = 5;
    /// No call has so many instructions: one that has goes on too long to be counted.
    const MOST: u64 = 400_000;

    unsafe extern "C" {
        fn ptrace(request: c_long, process: c_int, at: *mut c_void, data: *mut c_void) -> c_long;
        fn waitpid(process: c_int, status: &mut c_int, options: c_int) -> c_int;
    }

    /// Runs this program with the word, so that its steps can be counted.
    pub fn traced(word: &str) -> Child {
        let own = std::env::current_exe().expect("it has a name");
        let mut command = Command::new(own);
        command.arg(word).stdout(Stdio::piped());
        let trace = || match unsafe { ptrace(TRACE_ME, 0, null_mut(), null_mut()) } {
            0 => Ok(()),
            _ => Err(Error::last_os_error()),
        };
        // SAFETY: the call between fork and exec asks for no memory.
        unsafe { command.pre_exec(trace) };
        command.spawn().expect("a program may be traced")
    }

    /// Counts the instructions between each two marks of a program, until it ends.
    pub fn count(program: &Child) -> Vec<u64> {
        let process = program.id() as c_int;
        let (mut counts, mut steps) = (Vec::new(), None);
        loop {
            let mut status = 0;
            assert_eq!(unsafe { waitpid(process, &mut status, 0) }, process);
            if status & 0x7f == 0 {
                assert_eq!(status >> 8, 0, "the calls fail");
                return counts;
            }
            assert_eq!(status & 0xff, 0x7f, "the calls are ended by a signal");
            let mut signal = 0;
            match (status >> 8, steps) {
                (MARK, None) => steps = Some(0),
                (MARK, Some(all)) => {
                    counts.push(all);
                    steps = None;
                }
                (TRAP, _) => steps = steps.map(|steps| steps + 1),
                (other, _) => signal = other,
            }
            assert!(steps < Some(MOST), "call {} goes on and on", counts.len());
            let request = if steps.is_some() { STEP } else { GO_ON };
            let signal = signal as usize as *mut c_void;
            let goes_on = unsafe { ptrace(request, process, null_mut(), signal) };
            assert_eq!(goes_on, 0, "{}", Error::last_os_error());
        }
    }
}

#[cfg(not(target_os = "linux"))]
fn main() {
    println!("left out: no calls are counted here");
}

#[cfg(target_os = "linux")]
fn main() {
    use std::io::Read;

    if std::env::args().any(|word| word == calls::WORD) {
        return calls::make_all();
    }
    let mut program = counting::traced(calls::WORD);
    let mut output = program.stdout.take().expect("it is piped");
    let counts = counting::count(&program);
    let mut said = String::new();
    output.read_to_string(&mut said).expect("it is text");
    let wrong = calls::judge(&said, counts);
    assert_eq!(wrong, 0, "{wrong} calls have another shape");
}
