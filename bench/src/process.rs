//! Runs of MONA: the wall clock of a quiet run, and the automaton that a run prints.

use crate::clock::{median, Contender};
use crate::timed::Call;
use std::fs::File;
use std::path::PathBuf;
use std::process::{Command, Stdio};
use std::time::{Duration, Instant};

/// A run that takes longer is ended.
pub const TIMEOUT: Duration = Duration::from_secs(20);

/// How often the wall clock is taken, and of runs over `LONG` milliseconds.
const RUNS: usize = 15;
const FEW: usize = 5;
const LONG: f64 = 200.0;

/// A formula that asks nothing: what its run costs is the start of the process.
const EMPTY: &str = "m2l-str;\ntrue;\n";

/// Medians: milliseconds of a run and of the empty run beside it, and how many times as long as the
/// library's call beside it a run takes, with and without its start.
#[derive(Clone, Copy, Debug)]
pub struct Timing {
    pub whole: f64,
    pub empty: f64,
    pub over: f64,
    pub over_net: f64,
}

/// MONA with a file for its inputs and one for what it prints.
pub struct Mona {
    input: PathBuf,
    output: PathBuf,
}

impl Mona {
    /// MONA if it is installed.
    pub fn find() -> Option<Mona> {
        Command::new("mona").stdout(Stdio::null()).stderr(Stdio::null()).status().ok()?;
        let file = |end: &str| std::env::temp_dir().join(format!("bench-{}.{end}", std::process::id()));
        Some(Mona { input: file("mona"), output: file("listing") })
    }

    /// Milliseconds of one quiet run without the search for examples; nothing after the timeout.
    fn run(&self, text: &str, whole: bool, output: Stdio) -> Option<f64> {
        std::fs::write(&self.input, text).expect("the directory for temporary files can be written");
        let mut command = Command::new("mona");
        command.args(["-q", "-n"]).args(whole.then_some("-w")).arg(&self.input);
        command.stdin(Stdio::null()).stdout(output);
        let begin = Instant::now();
        let mut child = command.spawn().expect("mona can be started");
        loop {
            let ended = child.try_wait().expect("mona can be waited for");
            let took = begin.elapsed();
            if let Some(status) = ended {
                assert!(status.success(), "mona refuses {text}");
                return Some(took.as_secs_f64() * 1e3);
            }
            if took > TIMEOUT {
                child.kill().and_then(|()| child.wait()).expect("mona can be ended");
                return None;
            }
            std::thread::sleep(Duration::from_micros(50));
        }
    }

    /// The medians of several runs, each beside an empty one and the library's call; nothing if one
    /// passes the timeout.
    pub fn time(&self, text: &str, library: Call) -> Option<Timing> {
        let mut library = Contender::new(library);
        let (mut whole, mut empty, mut over, mut over_net) = (vec![], vec![], vec![], vec![]);
        while whole.len() < FEW || (whole.len() < RUNS && whole[0] < LONG) {
            let start = self.run(EMPTY, false, Stdio::null()).expect("an empty run has an end");
            let run = self.run(text, false, Stdio::null())?;
            let call = library.sample() / 1e3;
            whole.push(run);
            empty.push(start);
            over.push(run / call);
            over_net.push((run - start).max(0.0) / call);
        }
        Some(Timing { whole: median(whole), empty: median(empty), over: median(over), over_net: median(over_net) })
    }

    /// The automaton as MONA prints it; nothing after the timeout.
    pub fn listing(&self, text: &str) -> Option<String> {
        let file = File::create(&self.output).expect("the directory for temporary files can be written");
        self.run(text, true, file.into())?;
        Some(std::fs::read_to_string(&self.output).expect("mona prints plain text"))
    }
}

impl Drop for Mona {
    /// Takes the files away.
    fn drop(&mut self) {
        let _ = std::fs::remove_file(&self.input);
        let _ = std::fs::remove_file(&self.output);
    }
}
