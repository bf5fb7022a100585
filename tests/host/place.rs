//! Where hosts run: the words that start one, and a folder for its files.

use crate::host::{Ended, Host};
use std::fs::File;
use std::net::{IpAddr, Ipv4Addr, SocketAddr, UdpSocket};
use std::path::PathBuf;
use std::process::{Command, Stdio};
use std::time::{SystemTime, UNIX_EPOCH};

pub const HOME: IpAddr = IpAddr::V4(Ipv4Addr::LOCALHOST);

/// A start on a port that another program took meanwhile is tried so often.
const TRIES: u32 = 20;

pub struct Place {
    words: Vec<String>,
    pub folder: PathBuf,
}

impl Place {
    pub fn new(folder: PathBuf, words: Vec<String>) -> Place {
        Place { words, folder }
    }

    pub fn file(&self, name: &str) -> PathBuf {
        self.folder.join(name)
    }

    /// The path of a file as a word.
    pub fn word(&self, name: &str) -> String {
        self.file(name).to_string_lossy().into_owned()
    }

    pub fn state(&self) -> PathBuf {
        self.file("state")
    }

    /// A host that was only just started, with what it prints and says in files. It may not listen yet, and may never.
    pub fn launch(&self, at: SocketAddr, words: &[&str]) -> Host {
        self.launch_to(at, words, File::create(self.file("printed")).expect("no log").into())
    }

    fn launch_to(&self, at: SocketAddr, words: &[&str], log: Stdio) -> Host {
        let (printed, said) = (self.file("printed"), self.file("said"));
        let mut command = self.command(&[at.ip().to_string(), at.port().to_string(), self.word("state")]);
        command.args(words).stdout(log).stderr(File::create(&said).expect("no file"));
        Host::new(command.spawn().expect("the host cannot be run"), at, printed, said)
    }

    /// The first that listens: another program may have the port for a moment.
    fn listening(&self, launch: impl Fn() -> Host) -> Result<Host, String> {
        let mut why = String::new();
        for _ in 0..TRIES {
            let mut host = launch();
            match host.listens() {
                Ok(()) => return Ok(host),
                Err(said) if said.contains("cannot listen") => why = said,
                Err(said) => return Err(said),
            }
            std::thread::sleep(std::time::Duration::from_millis(100));
        }
        Err(why)
    }

    /// A host that listens at this place.
    pub fn start_at(&self, at: SocketAddr, words: &[&str]) -> Result<Host, String> {
        self.listening(|| self.launch(at, words))
    }

    /// A host that listens at some port of this address.
    pub fn start_on(&self, ip: IpAddr, words: &[&str]) -> Result<Host, String> {
        self.listening(|| self.launch(free(ip), words))
    }

    /// A host whose log goes to a pipe that is not read.
    pub fn start_unread(&self, words: &[&str]) -> Result<Host, String> {
        self.listening(|| self.launch_to(free(HOME), words, Stdio::piped()))
    }

    pub fn start(&self, words: &[&str]) -> Result<Host, String> {
        self.start_on(HOME, words)
    }

    /// Runs a host that has to end by itself, with these words as they are.
    pub fn run(&self, words: &[&str]) -> Result<Ended, String> {
        let (printed, said) = (self.file("run-printed"), self.file("run-said"));
        let mut command = self.command(&[]);
        command.args(words).stdout(File::create(&printed).expect("no log")).stderr(File::create(&said).expect("no file"));
        let child = command.spawn().expect("the host cannot be run");
        Host::new(child, SocketAddr::new(HOME, 0), printed, said).ends()
    }

    fn command(&self, words: &[String]) -> Command {
        let mut command = Command::new(&self.words[0]);
        command.args(&self.words[1..]).args(words).env("SHIFT", self.file("shift")).stdin(Stdio::null());
        command
    }
}

/// A port that is free now. They are taken from below those that the system gives to programs that ask for any.
pub fn free(ip: IpAddr) -> SocketAddr {
    let nanos = SystemTime::now().duration_since(UNIX_EPOCH).expect("no clock").subsec_nanos();
    let mut chance = crate::chance::Chance::new(u64::from(nanos) << 20 | u64::from(std::process::id()));
    loop {
        let at = SocketAddr::new(ip, 20_000 + chance.below(12_000) as u16);
        if UdpSocket::bind(at).is_ok() {
            return at;
        }
    }
}
