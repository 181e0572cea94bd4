//! Works each page's simulator in a browser, by the page's own controls, and compares all that it shows with the library's follower and
//! with the rule tried on the steps so far. Where no chromium is installed this part is left out.

mod cases;

use cases::Subject;
use desk::engine::{Mode, Position};
use desk::report::page;
use solver::chance::Chance;
use std::fs::{self, File};
use std::path::{Path, PathBuf};
use std::process::{Command, Stdio};
use std::sync::atomic::{AtomicUsize, Ordering::Relaxed};
use std::time::{Duration, Instant};

/// The script that does what the plan says, and the one that records errors.
const DRIVER: &str = include_str!("browser.js");
const FAULTS: &str = r#"<script>
const faults = [];
addEventListener("error", (event) => faults.push(event.message));
addEventListener("unhandledrejection", (event) => faults.push(String(event.reason)));
addEventListener("securitypolicyviolation", (event) => faults.push(event.violatedDirective + " " + event.blockedURI));
for (const kind of ["error", "warn"]) console[kind] = (...what) => faults.push(what.join(" "));
</script>
"#;

/// What follows the plan in the record: the three ways of copying, and no error.
const COPYING: [&str; 5] = [
    "not selected: The steps are copied as text.",
    "the text was copied",
    "selected: The text is selected, to be copied with Ctrl+C.",
    "selected: The text is selected, to be copied with Ctrl+C.",
    "faults: ",
];

/// Plays on each page, and steps in each.
const PLAYS: usize = 10;
const STEPS: usize = 26;

/// How long one run of the browser may take.
const LIMIT: Duration = Duration::from_secs(60);

/// Plays on all pages, two at a time, and tells how many there were or what differs.
fn main() {
    let Some(browser) = chromium() else {
        println!("the browser's part is left out: no chromium");
        return;
    };
    let mut subjects = cases::examples();
    subjects.extend(cases::stations());
    subjects.extend(cases::sizes());
    let next = AtomicUsize::new(0);
    let work = || {
        let mut done = Vec::new();
        while let Some(subject) = subjects.get(next.fetch_add(1, Relaxed)) {
            done.push(compared(&browser, subject).map_err(|difference| format!("{}: {difference}", subject.name)));
        }
        done
    };
    let results: Vec<Result<usize, String>> = std::thread::scope(|scope| {
        let workers = [scope.spawn(work), scope.spawn(work)];
        workers.into_iter().flat_map(|worker| worker.join().expect("a worker ends")).collect()
    });
    let steps: usize = results.iter().flatten().sum();
    let differences: Vec<&String> = results.iter().filter_map(|result| result.as_ref().err()).collect();
    for difference in &differences {
        println!("{difference}");
    }
    if !differences.is_empty() {
        println!("browser: {} of {} pages differ from the library", differences.len(), results.len());
        std::process::exit(1);
    }
    let (pages, plays) = (results.len(), results.len() * PLAYS);
    println!("browser: {pages} pages, {plays} plays, {} steps as the library has them", thousands(steps));
}

/// A number with a comma after its thousands.
fn thousands(number: usize) -> String {
    match number / 1000 {
        0 => number.to_string(),
        above => format!("{},{:03}", thousands(above), number % 1000),
    }
}

/// The browser, where there is one.
fn chromium() -> Option<PathBuf> {
    let folders: Vec<PathBuf> = std::env::split_paths(&std::env::var_os("PATH")?).collect();
    let names = ["chromium", "chromium-browser", "google-chrome"];
    names.iter().flat_map(|name| folders.iter().map(move |folder| folder.join(name))).find(|path| path.is_file())
}

/// Plays on the page of one subject, and compares: how many steps were taken, or the first difference.
fn compared(browser: &Path, subject: &Subject) -> Result<usize, String> {
    let page = page(&subject.case, &subject.name, &subject.file, Some("dot"));
    let plan = plan(subject, &page);
    let record = recorded(browser, &driven(&page, &plan))?;
    let lines: Vec<&str> = record.split('\n').collect();
    if lines.len() != plan.len() + COPYING.len() {
        return Err(format!("{} lines are recorded, and not {}", lines.len(), plan.len() + COPYING.len()));
    }
    for (turn, line) in plan.iter().zip(&lines) {
        differ(line, &turn.shown).map_or(Ok(()), |found| Err(format!("{}: {found}", turn.place)))?;
    }
    for (line, expected) in lines[plan.len()..].iter().zip(COPYING) {
        if *line != expected {
            return Err(format!("after the plays: {line:?}, and not {expected:?}"));
        }
    }
    Ok(plan.iter().filter(|turn| turn.step).count())
}

/// The first field in which a line is not as expected.
fn differ(line: &str, expected: &str) -> Option<String> {
    let (found, wanted): (Vec<&str>, Vec<&str>) = (line.split('\t').collect(), expected.split('\t').collect());
    if found.len() != wanted.len() {
        return Some(format!("{line:?}, and not {expected:?}"));
    }
    let mut pairs = found.iter().zip(&wanted);
    pairs
        .find(|(found, wanted)| found != wanted)
        .map(|(found, wanted)| format!("the page has {found:?}, the library {wanted:?}"))
}

/// One action of the plan: how it is done, where it stands, whether it takes a step, and what the page must show after it.
struct Turn {
    action: String,
    place: String,
    step: bool,
    shown: String,
}

/// A step that the library's follower took, and whether the letters up to it satisfy the rule.
#[derive(Clone)]
struct Taken {
    from: usize,
    input: usize,
    output: usize,
    position: Position,
    satisfied: bool,
}

/// A play as the library has it, next to what the reader has set.
struct Play<'a> {
    subject: &'a Subject,
    page: &'a str,
    steps: Vec<Taken>,
    chosen: usize,
    news: String,
    focus: String,
}

impl Play<'_> {
    /// The follower's position.
    fn position(&self) -> Position {
        self.steps.last().map_or(Position { state: 0, reached: false }, |taken| taken.position)
    }

    /// The wires that the reader sets.
    fn wires(&self) -> usize {
        let answer = &self.subject.case.answer;
        if answer.can {
            answer.inputs
        } else {
            answer.outputs
        }
    }

    /// One step of the follower: by the station's table, or by one that has the reader's output everywhere.
    fn step(&mut self) -> bool {
        let case = &self.subject.case;
        let (answer, from, mut position) = (&case.answer, self.position().state, self.position());
        if position.reached {
            return false;
        }
        let readers = vec![self.chosen as u8; answer.n << answer.inputs];
        let (table, input) = if answer.can { (&answer.station, self.chosen) } else { (&readers, answer.input(from)) };
        let output = answer.follow(table, input, &mut position).expect("the table has an output up to the goal");
        self.steps.push(Taken { from, input, output, position, satisfied: false });
        let letters: Vec<u8> =
            self.steps.iter().map(|taken| (taken.input + (taken.output << answer.inputs)) as u8).collect();
        let satisfied = case.question.satisfied(&letters);
        assert_eq!(satisfied, position.reached, "the follower and the trial agree");
        self.steps.last_mut().unwrap().satisfied = satisfied;
        let row = self.row(self.steps.len() - 1);
        let end = if position.reached { " The play is over: Undo or Restart." } else { "" };
        self.news = format!(
            "Step {}: inputs on: {}; commands on: {}; condition held: {}; state after: {}.{end}{}",
            row[0],
            row[1],
            row[2],
            row[3],
            row[4],
            self.next(),
        );
        true
    }

    /// Takes the last step back.
    fn undo(&mut self) {
        if let Some(undone) = self.steps.pop() {
            self.chosen = if self.subject.case.answer.can { undone.input } else { undone.output };
            self.news = format!("Step {} is taken back.{}", self.steps.len() + 1, self.next());
        }
    }

    /// Begins again.
    fn restart(&mut self) {
        (self.steps, self.chosen) = (Vec::new(), 0);
        self.news = format!("At the start.{}", self.next());
    }

    /// What the outside sets next, where it is the table's.
    fn next(&self) -> String {
        let answer = &self.subject.case.answer;
        if answer.can {
            return String::new();
        }
        let names = on(&self.subject.case.input_names(), answer.input(self.position().state));
        format!(" Inputs on in step {}: {names}.", self.steps.len() + 1)
    }

    /// A row of the table of steps.
    fn row(&self, index: usize) -> [String; 6] {
        let (case, taken) = (&self.subject.case, &self.steps[index]);
        let yes = |value: bool| String::from(if value { "yes" } else { "no" });
        [
            (index + 1).to_string(),
            on(&case.input_names(), taken.input),
            on(&case.output_names(), taken.output),
            yes(case.meets[taken.input]),
            taken.position.state.to_string(),
            yes(taken.satisfied),
        ]
    }

    /// What the page counts: with the condition on "can" and without it on "cannot"; in all, or since it was last otherwise.
    fn count(&self) -> usize {
        let case = &self.subject.case;
        let (mut in_all, mut in_a_row) = (0, 0);
        for taken in &self.steps {
            if case.meets[taken.input] == case.answer.can {
                (in_all, in_a_row) = (in_all + 1, in_a_row + 1);
            } else {
                in_a_row = 0;
            }
        }
        match (case.answer.can, case.question.mode) {
            (true, Mode::Fair) | (false, Mode::Stable) => in_all,
            (true, Mode::Stable) | (false, Mode::Fair) => in_a_row,
        }
    }

    /// The buttons that can do nothing now.
    fn disabled(&self) -> Vec<&'static str> {
        let all = [(self.position().reached, "do-step"), (self.steps.is_empty(), "do-undo")];
        all.into_iter().filter(|item| item.0).map(|item| item.1).collect()
    }

    /// What the page says after the count: the number that bounds it.
    fn bound(&self) -> String {
        let case = &self.subject.case;
        match (case.answer.can, case.meets.contains(&false)) {
            (true, _) => format!(" of at most {}", case.answer.round),
            (false, true) => format!("; by the theorem it stays below {}", case.answer.n),
            (false, false) => ": every input meets it".into(),
        }
    }

    /// Checks what the theorem says of the count.
    fn bounded(&self) {
        let answer = &self.subject.case.answer;
        if answer.can {
            assert!(self.count() <= answer.round && (self.count() < answer.round || self.position().reached));
        } else {
            assert!(self.count() < answer.n && !self.position().reached);
        }
    }

    /// The sentence on the goal.
    fn kept(&self) -> String {
        match (self.position().reached, &*self.subject.case.station.goal) {
            (false, _) => String::new(),
            (true, "the rule is kept") => format!("Step {}: the rule is kept", self.steps.len()),
            (true, goal) => format!("Step {}: the rule is kept: {goal}", self.steps.len()),
        }
    }

    /// An element's id, if the page has it in its picture.
    fn drawn(&self, id: String) -> String {
        let has = |id: &str| self.page.contains(&format!("id=\"{id}\""));
        if has("picture") && has(&id) {
            id
        } else {
            String::new()
        }
    }

    /// The line that the driver must record.
    fn shown(&self) -> String {
        let (case, state, steps) = (&self.subject.case, self.position().state, self.steps.len());
        let (answer, last, over) = (&case.answer, self.steps.last(), self.position().reached);
        let step = if steps == 0 { "no step yet".into() } else { format!("step {steps}") };
        let rows: Vec<String> = (0..steps).map(|index| self.row(index).join("|")).collect();
        let lamps = if answer.can { last.map_or(0, |taken| taken.output) } else { answer.input(state) };
        let condition =
            last.map_or("no step yet", |taken| if case.meets[taken.input] { "held" } else { "did not hold" });
        let coming = vec![(steps + 1).to_string(); if answer.can { 1 } else { 2 }];
        let fields = [
            format!("state={state}"),
            format!("coming={}", coming.join(" ")),
            format!("lampsStep={}", if answer.can { &step } else { "" }),
            format!("toggles={}", bits(self.chosen, self.wires())),
            format!("lamps={}", bits(lamps, answer.inputs + answer.outputs - self.wires())),
            format!("condition={condition}"),
            format!("count={}{}", self.count(), self.bound()),
            format!("rule={}", if over { format!("kept in {step}") } else { self.not_kept().into() }),
            format!("news={}", self.news),
            format!("kept={}", self.kept()),
            format!("disabled={}", self.disabled().join(" ")),
            format!("focus={}", self.focus),
            format!("here={}", self.drawn(format!("state-{state}"))),
            format!("taken={}", last.map_or("".into(), |taken| self.drawn(format!("move-{}-{state}", taken.from)))),
            format!("rows={}", rows.join(";")),
            format!("text={}", self.text(&rows)),
        ];
        fields.join("\t")
    }

    /// How the page says that the rule is not kept.
    fn not_kept(&self) -> &'static str {
        if self.subject.case.answer.can {
            "not kept yet"
        } else {
            "not kept"
        }
    }

    /// The steps as text, as the driver records it.
    fn text(&self, rows: &[String]) -> String {
        let mut lines = vec!["Step|Inputs on|Commands on|Condition held|State after|Rule kept".to_string()];
        lines.extend_from_slice(rows);
        if self.position().reached {
            lines.extend([String::new(), self.kept()]);
        }
        lines.join(";") + ";"
    }
}

/// The names of what a number sets.
fn on(names: &[&str], number: usize) -> String {
    let set: Vec<&str> = (0..names.len()).filter(|&wire| number >> wire & 1 == 1).map(|wire| names[wire]).collect();
    if set.is_empty() {
        "none".into()
    } else {
        set.join(", ")
    }
}

/// A number's bits, the lowest first.
fn bits(number: usize, wires: usize) -> String {
    (0..wires).map(|wire| if number >> wire & 1 == 1 { '1' } else { '0' }).collect()
}

/// The actions on a page, with what it must show after each.
fn plan(subject: &Subject, page: &str) -> Vec<Turn> {
    let (mut turns, mut focus) = (Vec::new(), String::new());
    for number in 0..PLAYS {
        let mut play = Play { subject, page, steps: Vec::new(), chosen: 0, news: String::new(), focus };
        let mut chance = Chance::new(1, number as u64, subject.case.answer.n as u64);
        let (begin, mut steps) = (turns.len(), 0);
        add(&mut turns, &mut play, number, "restart", &mut chance);
        while steps < STEPS && turns.len() < begin + 10 * STEPS {
            for action in actions(&play, number, &mut chance) {
                add(&mut turns, &mut play, number, &action, &mut chance);
                steps += turns.last().unwrap().step as usize;
            }
        }
        focus = play.focus;
    }
    turns
}

/// Some actions that may come next: mostly wires to be toggled and a step, now and then one of the others.
fn actions(play: &Play, number: usize, chance: &mut Chance) -> Vec<String> {
    let over = play.position().reached;
    match chance.below(24) {
        0 => vec!["restart".into()],
        1 | 2 => vec!["undo".into()],
        3 => vec!["ignored".into()],
        4..=12 if over => vec!["undo".into()],
        4 => vec!["undo".into(), "undo".into(), "undo".into()],
        _ => {
            let next = reader(play, number, chance);
            let wires = (0..play.wires()).filter(|wire| (play.chosen ^ next) >> wire & 1 == 1);
            wires.map(|wire| wire.to_string()).chain(["step".into()]).collect()
        }
    }
}

/// A number for the reader to set: in every other play on "can" mostly one that lacks the condition, so that plays get long.
fn reader(play: &Play, number: usize, chance: &mut Chance) -> usize {
    let (meets, count) = (&play.subject.case.meets, 1 << play.wires());
    let lacking: Vec<usize> = (0..meets.len()).filter(|&input| !meets[input]).collect();
    match play.subject.case.answer.can && number.is_multiple_of(2) && !lacking.is_empty() && !chance.one_in(8) {
        true => chance.pick(&lacking),
        false => chance.below(count),
    }
}

/// How an action is done on the page, by a click or by a key: KIND:WHAT.
fn way(action: &str, keys: bool, chance: &mut Chance) -> String {
    let ignored = ["held:1", "held:Enter", "field:1", "field:u", "field:Enter", "button:Enter", "key:x"];
    match (action, keys) {
        ("step", true) => chance.pick(&["key:Enter", "toggle:Enter"]).into(),
        ("undo", true) => chance.pick(&["key:u", "key:Backspace"]).into(),
        ("restart", true) => "key:r".into(),
        ("step" | "undo" | "restart", false) => format!("click:do-{action}"),
        ("ignored", _) => chance.pick(&ignored).into(),
        (wire, true) => format!("key:{}", wire.parse::<usize>().unwrap() + 1),
        (wire, false) => format!("click:toggle-{wire}"),
    }
}

/// Adds an action to the plan and does it in the play.
fn add(turns: &mut Vec<Turn>, play: &mut Play, number: usize, action: &str, chance: &mut Chance) {
    let keys = number % 3 == 1 || number % 3 == 2 && chance.one_in(2);
    let way = way(action, keys, chance);
    if let Some(button) = way.strip_prefix("click:").filter(|button| !play.disabled().contains(button)) {
        play.focus = button.into();
    }
    let mut step = false;
    match action {
        "step" => step = play.step(),
        "undo" => play.undo(),
        "restart" => play.restart(),
        "ignored" => (),
        wire => play.chosen ^= 1 << wire.parse::<usize>().unwrap(),
    }
    if play.disabled().contains(&&*play.focus) {
        play.focus = "play-outcome".into();
    }
    play.bounded();
    let place = format!("play {}, action {} ({way}), after step {}", number + 1, turns.len() + 1, play.steps.len());
    turns.push(Turn { action: way, place, step, shown: play.shown() });
}

/// The page with the driver and its plan.
fn driven(page: &str, plan: &[Turn]) -> String {
    let actions: Vec<String> = plan.iter().map(|turn| format!("\"{}\"", turn.action)).collect();
    let plan = format!("<script type=\"application/json\" id=\"plan\">[{}]</script>\n", actions.join(","));
    let (before, after) = page.rsplit_once("</body>").expect("the page has a body");
    let page = format!("{before}{plan}<script>\n{DRIVER}</script>\n</body>{after}");
    page.replacen("</head>", &format!("{FAULTS}</head>"), 1)
}

/// A folder that is removed in the end.
struct Folder(PathBuf);

impl Drop for Folder {
    /// Removes it; a browser that was killed may still write for a moment.
    fn drop(&mut self) {
        for _ in 0..100 {
            match fs::remove_dir_all(&self.0) {
                Err(_) if self.0.exists() => std::thread::sleep(Duration::from_millis(20)),
                _ => return,
            }
        }
    }
}

/// Opens a page in the browser and takes the record from it.
fn recorded(browser: &Path, page: &str) -> Result<String, String> {
    static RUNS: AtomicUsize = AtomicUsize::new(0);
    let name = format!("desk-browser-{}-{}", std::process::id(), RUNS.fetch_add(1, Relaxed));
    let folder = Folder(std::env::temp_dir().join(name));
    fs::create_dir_all(&folder.0).unwrap();
    let (file, dump) = (folder.0.join("page.html"), folder.0.join("dump.html"));
    fs::write(&file, page).unwrap();
    let mut child = Command::new(browser)
        .args([
            "--headless",
            "--no-sandbox",
            "--disable-gpu",
            "--disable-dev-shm-usage",
            "--no-first-run",
            "--disable-extensions",
        ])
        .args(["--disable-background-networking", "--disable-component-update", "--disable-sync"])
        .args(["--virtual-time-budget=20000", "--dump-dom"])
        .arg(format!("--user-data-dir={}", folder.0.join("profile").display()))
        .arg(format!("file://{}", file.display()))
        .env("TMPDIR", &folder.0)
        .stdin(Stdio::null())
        .stdout(File::create(&dump).unwrap())
        .stderr(Stdio::null())
        .spawn()
        .map_err(|error| format!("the browser does not start: {error}"))?;
    let begin = Instant::now();
    while child.try_wait().unwrap().is_none() {
        if begin.elapsed() > LIMIT {
            let _ = child.kill();
            let _ = child.wait();
            return Err("the browser does not end".into());
        }
        std::thread::sleep(Duration::from_millis(20));
    }
    record(&String::from_utf8_lossy(&fs::read(&dump).unwrap()))
}

/// The record in a page that the browser wrote out.
fn record(dump: &str) -> Result<String, String> {
    let (_, after) = dump.rsplit_once("<pre id=\"record\">").ok_or("the page has no record")?;
    let (record, _) = after.split_once("</pre>").ok_or("the record has no end")?;
    Ok(record.replace("&lt;", "<").replace("&gt;", ">").replace("&nbsp;", "\u{a0}").replace("&amp;", "&"))
}
