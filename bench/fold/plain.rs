//! A plain fold over a script, the baseline for `acts play`: a table in the maps and sets of std, without contracts, without a store, and
//! without refusals when memory runs out. It supports only what the scripts of `bench/play` need: admissions, claims, reports and looks;
//! needs, matrices of variables, groups of runs. It reads no templates and no conditions. `sweeps/compared/plain.py` is the model of all
//! commands.

use std::collections::{BTreeSet, HashMap};
use std::io::{Read, Write};

// JSON.

enum Json {
    Other,
    Flag(bool),
    Whole(i64),
    Text(String),
    List(Vec<Json>),
    Object(Vec<(String, Json)>),
}

struct Reader<'a> {
    bytes: &'a [u8],
    at: usize,
}

impl Reader<'_> {
    fn space(&mut self) {
        while matches!(self.bytes.get(self.at), Some(b' ' | b'\n' | b'\t' | b'\r')) {
            self.at += 1;
        }
    }

    fn takes(&mut self, byte: u8) -> bool {
        self.space();
        let found = self.bytes.get(self.at) == Some(&byte);
        self.at += usize::from(found);
        found
    }

    fn value(&mut self) -> Option<Json> {
        self.space();
        match *self.bytes.get(self.at)? {
            b'{' => self.object(),
            b'[' => self.list(),
            b'"' => self.text().map(Json::Text),
            b'-' | b'0'..=b'9' => self.number(),
            _ => self.word(),
        }
    }

    fn object(&mut self) -> Option<Json> {
        self.at += 1;
        let mut members = Vec::new();
        if self.takes(b'}') {
            return Some(Json::Object(members));
        }
        loop {
            self.space();
            let name = self.text()?;
            if !self.takes(b':') {
                return None;
            }
            members.push((name, self.value()?));
            if self.takes(b'}') {
                return Some(Json::Object(members));
            }
            if !self.takes(b',') {
                return None;
            }
        }
    }

    fn list(&mut self) -> Option<Json> {
        self.at += 1;
        let mut items = Vec::new();
        if self.takes(b']') {
            return Some(Json::List(items));
        }
        loop {
            items.push(self.value()?);
            if self.takes(b']') {
                return Some(Json::List(items));
            }
            if !self.takes(b',') {
                return None;
            }
        }
    }

    /// A text without escapes.
    fn text(&mut self) -> Option<String> {
        if self.bytes.get(self.at) != Some(&b'"') {
            return None;
        }
        let start = self.at + 1;
        let length = self.bytes[start..].iter().position(|byte| *byte == b'"')?;
        self.at = start + length + 1;
        let text = std::str::from_utf8(&self.bytes[start..start + length]).ok()?;
        (!text.contains('\\')).then(|| text.to_owned())
    }

    fn number(&mut self) -> Option<Json> {
        let rest = &self.bytes[self.at..];
        let length = rest.iter().position(|byte| !matches!(byte, b'-' | b'0'..=b'9')).unwrap_or(rest.len());
        self.at += length;
        let digits = std::str::from_utf8(&rest[..length]).ok()?;
        digits.parse().ok().map(Json::Whole)
    }

    fn word(&mut self) -> Option<Json> {
        for (word, value) in [("true", Json::Flag(true)), ("false", Json::Flag(false)), ("null", Json::Other)] {
            if self.bytes[self.at..].starts_with(word.as_bytes()) {
                self.at += word.len();
                return Some(value);
            }
        }
        None
    }
}

impl Json {
    fn read(text: &str) -> Option<Json> {
        let mut reader = Reader { bytes: text.as_bytes(), at: 0 };
        let value = reader.value()?;
        reader.space();
        (reader.at == text.len()).then_some(value)
    }

    fn member(&self, name: &str) -> Option<&Json> {
        match self {
            Json::Object(members) => members.iter().find(|member| member.0 == name).map(|member| &member.1),
            _ => None,
        }
    }

    fn text(&self) -> Option<&str> {
        match self {
            Json::Text(text) => Some(text),
            _ => None,
        }
    }

    /// A text, or the texts of a list.
    fn texts(&self) -> Option<Vec<String>> {
        match self {
            Json::Text(text) => Some(vec![text.clone()]),
            Json::List(items) => items.iter().map(|item| item.text().map(str::to_owned)).collect(),
            _ => None,
        }
    }

    fn printed(&self) -> String {
        match self {
            Json::Whole(number) => number.to_string(),
            Json::Flag(flag) => flag.to_string(),
            Json::Text(text) => format!("{text:?}"),
            _ => "null".to_owned(),
        }
    }
}

// The plan of a body.

struct PlannedJob {
    id: String,
    labels: Vec<String>,
    needs: Vec<usize>,
    combos: Vec<String>,
}

struct Event {
    workflow: (String, String),
    group: Option<String>,
    cancels: bool,
    jobs: Vec<PlannedJob>,
}

/// The combinations of a matrix, the first variable by name changing slowest.
fn combos(job: &Json) -> Option<Vec<String>> {
    let Some(matrix) = job.member("strategy").and_then(|strategy| strategy.member("matrix")) else {
        return Some(vec!["{}".to_owned()]);
    };
    let Json::Object(members) = matrix else { return None };
    let mut variables: Vec<_> = members.iter().collect();
    variables.sort_by(|one, other| one.0.cmp(&other.0));
    let mut combos = vec![String::new()];
    for (name, values) in variables {
        let Json::List(values) = values else { return None };
        let longer = |combo: &String, value: &Json| {
            let comma = if combo.is_empty() { "" } else { "," };
            format!("{combo}{comma}\"{name}\":{}", value.printed())
        };
        combos = combos.iter().flat_map(|combo| values.iter().map(move |value| longer(combo, value))).collect();
    }
    Some(combos.into_iter().map(|combo| format!("{{{combo}}}")).collect())
}

fn planned_jobs(jobs: &Json) -> Option<Vec<PlannedJob>> {
    let Json::Object(members) = jobs else { return None };
    let mut members: Vec<_> = members.iter().collect();
    members.sort_by(|one, other| one.0.cmp(&other.0));
    let indexes: HashMap<&str, usize> = members.iter().enumerate().map(|(index, job)| (job.0.as_str(), index)).collect();
    let planned = |(id, job): &&(String, Json)| {
        let needs = job.member("needs").map_or(Some(Vec::new()), Json::texts)?;
        Some(PlannedJob {
            id: id.clone(),
            labels: job.member("runs-on")?.texts()?,
            needs: needs.iter().map(|id| indexes.get(id.as_str()).copied()).collect::<Option<_>>()?,
            combos: combos(job)?,
        })
    };
    members.iter().map(planned).collect()
}

fn event_of(body: &str) -> Option<Event> {
    let body = Json::read(body)?;
    let repo = body.member("repo")?.text()?;
    let path = body.member("path")?.text()?;
    let workflow = body.member("workflow")?;
    let concurrency = workflow.member("concurrency");
    let group = concurrency.and_then(|value| value.text().or_else(|| value.member("group")?.text()));
    let cancels = concurrency.and_then(|value| value.member("cancel-in-progress"));
    Some(Event {
        workflow: (repo.to_owned(), path.to_owned()),
        group: group.filter(|name| !name.is_empty()).map(|name| format!("{repo}\n{}", name.to_lowercase())),
        cancels: matches!(cancels, Some(Json::Flag(true))),
        jobs: planned_jobs(workflow.member("jobs")?)?,
    })
}

// The table.

#[derive(Clone, Copy, PartialEq)]
enum Leg {
    Ready,
    Running,
    Stopping,
    Ended(&'static str),
}

#[derive(Clone, Copy, PartialEq)]
enum Phase {
    Waiting,
    Live,
    Ended,
}

struct Job {
    /// The number of jobs that it needs and that have not ended.
    open_needs: usize,
    result: Option<&'static str>,
    legs: Vec<Leg>,
    /// The number of legs that have not ended.
    open_legs: usize,
}

struct Run {
    event: Event,
    #[allow(dead_code)]
    body: String,
    number: usize,
    phase: Phase,
    stopping: bool,
    claimed: bool,
    jobs: Vec<Job>,
    /// The number of jobs that have not ended.
    open_jobs: usize,
}

#[derive(Default)]
struct Group {
    running: Option<usize>,
    pending: Option<usize>,
}

#[derive(Default)]
struct Runner {
    number: usize,
    command: String,
    reply: String,
    lease: Option<usize>,
}

type LegIndex = (usize, usize, usize);

#[derive(Default)]
struct Table {
    runs: Vec<Run>,
    deliveries: HashMap<String, usize>,
    workflows: HashMap<(String, String), usize>,
    groups: HashMap<String, Group>,
    runners: HashMap<String, Runner>,
    ready: BTreeSet<LegIndex>,
    leases: HashMap<usize, LegIndex>,
    last_lease: usize,
}

impl Table {
    fn admit(&mut self, delivery: &str, body: &str) -> String {
        let Some(event) = event_of(body) else { return "refused 10".to_owned() };
        if let Some(run) = self.deliveries.get(delivery) {
            return format!("created {}", run + 1);
        }
        let r = self.runs.len();
        let number = self.workflows.entry(event.workflow.clone()).or_insert(0);
        *number += 1;
        let blocked = |job: &PlannedJob| Job { open_needs: job.needs.len(), result: None, legs: Vec::new(), open_legs: job.combos.len() };
        let jobs: Vec<Job> = event.jobs.iter().map(blocked).collect();
        let run = Run {
            open_jobs: jobs.len(),
            number: *number,
            body: body.to_owned(),
            phase: Phase::Waiting,
            stopping: false,
            claimed: false,
            jobs,
            event,
        };
        self.runs.push(run);
        self.deliveries.insert(delivery.to_owned(), r);
        self.arrive(r);
        format!("created {}", r + 1)
    }

    fn arrive(&mut self, r: usize) {
        let Some(name) = self.runs[r].event.group.clone() else { return self.start(r) };
        let group = self.groups.entry(name).or_default();
        let (displaced, running) = (group.pending.take(), group.running);
        if let Some(other) = displaced {
            self.cancel_waiting(other);
        }
        match running {
            None => self.start(r),
            Some(other) => {
                self.group_of(r).pending = Some(r);
                if self.runs[r].event.cancels {
                    self.stop(other);
                }
            }
        }
    }

    fn group_of(&mut self, r: usize) -> &mut Group {
        let name = self.runs[r].event.group.clone().unwrap_or_default();
        self.groups.entry(name).or_default()
    }

    fn cancel_waiting(&mut self, r: usize) {
        let run = &mut self.runs[r];
        run.phase = Phase::Ended;
        for job in &mut run.jobs {
            job.result = Some("cancelled");
        }
    }

    fn start(&mut self, r: usize) {
        if self.runs[r].event.group.is_some() {
            self.group_of(r).running = Some(r);
        }
        self.runs[r].phase = Phase::Live;
        for j in 0..self.runs[r].jobs.len() {
            if self.runs[r].jobs[j].open_needs == 0 {
                self.open(r, j);
            }
        }
    }

    fn open(&mut self, r: usize, j: usize) {
        let run = &mut self.runs[r];
        let failed = run.event.jobs[j].needs.iter().any(|need| run.jobs[*need].result != Some("success"));
        if run.stopping || failed {
            let result = if run.stopping { "cancelled" } else { "skipped" };
            return self.end_job(r, j, result);
        }
        let count = run.event.jobs[j].combos.len();
        run.jobs[j].legs = vec![Leg::Ready; count];
        self.ready.extend((0..count).map(|l| (r, j, l)));
    }

    /// Stops a run: its ready legs are cancelled, and its running legs are asked to stop.
    fn stop(&mut self, r: usize) {
        if self.runs[r].stopping {
            return;
        }
        self.runs[r].stopping = true;
        for j in 0..self.runs[r].jobs.len() {
            for l in 0..self.runs[r].jobs[j].legs.len() {
                match self.runs[r].jobs[j].legs[l] {
                    Leg::Ready => {
                        self.ready.remove(&(r, j, l));
                        self.end_leg((r, j, l), "cancelled");
                    }
                    Leg::Running => self.runs[r].jobs[j].legs[l] = Leg::Stopping,
                    Leg::Stopping | Leg::Ended(_) => {}
                }
            }
        }
    }

    fn end_leg(&mut self, leg: LegIndex, result: &'static str) {
        let (r, j, l) = leg;
        let job = &mut self.runs[r].jobs[j];
        job.legs[l] = Leg::Ended(result);
        job.open_legs -= 1;
        if job.open_legs == 0 {
            let worst = ["failure", "cancelled"].into_iter().find(|worst| job.legs.contains(&Leg::Ended(worst)));
            self.end_job(r, j, worst.unwrap_or("success"));
        }
    }

    fn end_job(&mut self, r: usize, j: usize, result: &'static str) {
        let run = &mut self.runs[r];
        run.jobs[j].result = Some(result);
        run.open_jobs -= 1;
        if run.open_jobs == 0 {
            return self.end_run(r);
        }
        for dependent in 0..self.runs[r].jobs.len() {
            let run = &mut self.runs[r];
            if run.event.jobs[dependent].needs.contains(&j) {
                run.jobs[dependent].open_needs -= 1;
                if run.jobs[dependent].open_needs == 0 {
                    self.open(r, dependent);
                }
            }
        }
    }

    fn end_run(&mut self, r: usize) {
        self.runs[r].phase = Phase::Ended;
        if self.runs[r].event.group.is_none() {
            return;
        }
        let group = self.group_of(r);
        group.running = None;
        if let Some(next) = group.pending.take() {
            self.start(next);
        }
    }

    /// The kept reply, or a refusal if the number is not the runner's next one.
    fn repeated_or_refused(&self, name: &str, number: usize, command: &str) -> Option<String> {
        let runner = self.runners.get(name);
        let last = runner.map_or(0, |runner| runner.number);
        match runner {
            Some(runner) if number == last && runner.command == command => Some(runner.reply.clone()),
            _ if number != last + 1 => Some(format!("refused 43 {last}")),
            _ => None,
        }
    }

    fn keep(&mut self, name: &str, number: usize, command: &str, reply: &str, lease: Option<usize>) {
        let kept = Runner { number, command: command.to_owned(), reply: reply.to_owned(), lease };
        self.runners.insert(name.to_owned(), kept);
    }

    fn claim(&mut self, line: &str, name: &str, number: usize, labels: &str) -> String {
        if let Some(reply) = self.repeated_or_refused(name, number, line) {
            return reply;
        }
        if self.runners.get(name).is_some_and(|runner| runner.lease.is_some()) {
            return "refused 42".to_owned();
        }
        let has = |wanted: &String| labels.split(',').any(|label| label.eq_ignore_ascii_case(wanted));
        let fits = |leg: &&LegIndex| self.runs[leg.0].event.jobs[leg.1].labels.iter().all(has);
        let Some(leg) = self.ready.iter().find(fits).copied() else {
            self.keep(name, number, line, "nothing", None);
            return "nothing".to_owned();
        };
        self.ready.remove(&leg);
        self.last_lease += 1;
        self.leases.insert(self.last_lease, leg);
        let run = &mut self.runs[leg.0];
        run.claimed = true;
        run.jobs[leg.1].legs[leg.2] = Leg::Running;
        let job = &run.event.jobs[leg.1];
        let reply = format!("lease {} {} {} {} {}", self.last_lease, leg.0 + 1, job.id, leg.2, job.combos[leg.2]);
        self.keep(name, number, line, &reply, Some(self.last_lease));
        reply
    }

    fn done(&mut self, line: &str, name: &str, number: usize, lease: usize, result: &'static str) -> String {
        if let Some(reply) = self.repeated_or_refused(name, number, line) {
            return reply;
        }
        if self.runners.get(name).and_then(|runner| runner.lease) != Some(lease) {
            return "refused 44".to_owned();
        }
        self.keep(name, number, line, "ok", None);
        if let Some(leg) = self.leases.remove(&lease) {
            self.end_leg(leg, result);
        }
        "ok".to_owned()
    }

    fn look(&self, id: usize) -> String {
        let Some(run) = id.checked_sub(1).and_then(|r| self.runs.get(r)) else { return "refused 40".to_owned() };
        let phase = match run.phase {
            Phase::Waiting => "pending",
            Phase::Live if run.claimed => "in_progress",
            Phase::Live => "queued",
            Phase::Ended => "completed",
        };
        let has = |result: &&&str| run.jobs.iter().any(|job| job.result == Some(**result));
        let conclusion = match run.phase {
            Phase::Ended => ["failure", "cancelled"].iter().find(has).copied().unwrap_or("success"),
            _ => "-",
        };
        let jobs: Vec<String> = run.jobs.iter().zip(&run.event.jobs).map(printed_job).collect();
        format!("run {id} {} {phase} {conclusion} {}", run.number, jobs.join(" "))
    }
}

fn printed_job((job, planned): (&Job, &PlannedJob)) -> String {
    let leg = |leg: &Leg| match leg {
        Leg::Ready => "ready",
        Leg::Running => "running",
        Leg::Stopping => "stopping",
        Leg::Ended(result) => result,
    };
    let legs: Vec<&str> = job.legs.iter().map(leg).collect();
    match job.result {
        Some(result) => format!("{}:{result}({})", planned.id, legs.join(",")),
        None if job.legs.is_empty() => format!("{}:blocked", planned.id),
        None => format!("{}:open({})", planned.id, legs.join(",")),
    }
}

// Lines.

fn answer(table: &mut Table, line: &str) -> Option<String> {
    let mut words = line.splitn(4, ' ');
    match words.next()? {
        "admit" => {
            let (delivery, _event, body) = (words.next()?, words.next()?, words.next()?);
            Some(table.admit(delivery, body))
        }
        "claim" => {
            let (name, number, labels) = (words.next()?, words.next()?.parse().ok()?, words.next()?);
            Some(table.claim(line, name, number, labels))
        }
        "done" => {
            let (name, number, rest) = (words.next()?, words.next()?.parse().ok()?, words.next()?);
            let (lease, result) = rest.split_once(' ')?;
            let result = ["success", "failure", "cancelled"].into_iter().find(|known| *known == result)?;
            Some(table.done(line, name, number, lease.parse().ok()?, result))
        }
        "look" => Some(table.look(words.next()?.parse().ok()?)),
        _ => None,
    }
}

fn main() -> std::io::Result<()> {
    let mut script = String::new();
    std::io::stdin().read_to_string(&mut script)?;
    let mut table = Table::default();
    let mut out = std::io::BufWriter::new(std::io::stdout());
    for line in script.lines().filter(|line| !line.is_empty()) {
        let answer = answer(&mut table, line).unwrap_or_else(|| "refused 75".to_owned());
        writeln!(out, "{answer}")?;
    }
    out.flush()
}
