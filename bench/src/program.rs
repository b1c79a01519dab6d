//! `list` of the program: two revisions of it run beside each other and are asked in turn.
use crate::arena::Map;
use crate::revision::Revision;
use crate::shown::{number, ratio};
use crate::timing::{least_of_passes, least_times, see, time};
use std::io::{BufRead, BufReader, Write};
use std::path::PathBuf;
use std::process::{Child, ChildStdin, ChildStdout, Command, Stdio};

/// As many entries as the program's arena takes in one version.
const ENTRIES: u32 = 2027;

/// How often the rounds are made.
const PASSES: usize = 4;

/// The program, running, with a version of all entries in the slot.
struct Program {
    child: Child,
    commands: ChildStdin,
    answers: BufReader<ChildStdout>,
    slot: String,
}

impl Program {
    /// The command ./foamcorbel starts any program that the variable names.
    fn start(program: PathBuf, entries: &Map) -> Program {
        let program = program.canonicalize().expect("bench/run has made the program");
        let mut command = Command::new("./foamcorbel");
        command.env("FOAMCORBEL_PROGRAM", program).stdin(Stdio::piped()).stdout(Stdio::piped());
        let mut child = command.spawn().expect("./foamcorbel starts from the root of the repository");
        let commands = child.stdin.take().expect("its input is a pipe");
        let answers = BufReader::new(child.stdout.take().expect("its output is a pipe"));
        let mut program = Program { child, commands, answers, slot: String::new() };
        program.slot = program.ask("new");
        entries.iter().for_each(|(key, value)| program.set(*key, *value));
        program
    }

    fn set(&mut self, key: u32, value: u32) {
        let old = self.slot.clone();
        self.slot = self.ask(&format!("set {old} {key} {value}"));
        assert_eq!(self.ask(&format!("drop {old}")), "ok", "an old version is dropped");
    }

    fn say(&mut self, command: &str) {
        writeln!(self.commands, "{command}").expect("the program reads");
    }

    fn line(&mut self) -> String {
        let mut line = String::new();
        self.answers.read_line(&mut line).expect("the program writes lines");
        line.trim_end().into()
    }

    fn ask(&mut self, command: &str) -> String {
        self.say(command);
        self.line()
    }

    /// The lines of the listing before `end`.
    fn list(&mut self) -> Vec<String> {
        self.say(&format!("list {}", self.slot));
        let mut lines = Vec::new();
        loop {
            match self.line() {
                line if line == "end" => return lines,
                line => lines.push(line),
            }
        }
    }

    fn end(mut self) {
        drop(self.commands);
        assert!(self.child.wait().is_ok_and(|status| status.success()), "the program ends well");
    }
}

pub fn table(revisions: &[Revision]) {
    let entries: Map = (1..=ENTRIES).map(|i| (i.wrapping_mul(0x9e37_79b1), i)).collect();
    let right: Vec<String> = entries.iter().map(|(key, value)| format!("{key} {value}")).collect();
    let mut programs: Vec<Program> =
        revisions.iter().map(|revision| Program::start(revision.program(), &entries)).collect();
    programs.iter_mut().for_each(|program| assert!(program.list() == right, "the program lists what rpds's map has"));
    let mut pass = || least_times(revisions.len(), |i| time(|| see(programs[i].list())));
    let least = least_of_passes(PASSES, || pass().into_iter().map(Some).collect());
    programs.into_iter().for_each(Program::end);
    let (before, now) = (least[0], least[revisions.len() - 1]);
    println!("\n## The program\n");
    println!("| input | before ms | now ms | now to before |\n|---|---|---|---|");
    let millis = |nanos: Option<f64>| number(nanos.map(|nanos| nanos / 1e6), 2);
    println!("| `list` of {ENTRIES} lines | {} | {} | {} |", millis(before), millis(now), ratio(now, before));
}
