//! Compiles a source directory as `undorc compile` does, in plain Rust: services with their limits,
//! flags, scripts and dependencies, without bundles and pipelines. It prints the text of the
//! database, or the fault, and exits with status 1 then. `compile.sh` counts its instructions.
use std::collections::HashMap;
use std::fs::{self, File};
use std::io::{Read, Write, stdout};
use std::path::Path;
use std::process::ExitCode;

const MOST: usize = 4096;
const MOST_TEXT: u64 = 65_536;

#[derive(Debug)]
#[allow(dead_code)]
enum Fault {
    Io(String),
    BadName(String),
    NotText(String),
    TooLong(String),
    BadType(String),
    BadTimeout(String),
    NoUp(String),
    NoRun(String),
    Unknown(String, String),
    Cycle(String),
    TooMany,
}

struct Service {
    name: String,
    is_oneshot: bool,
    essential: bool,
    limits: (u32, u32),
    needs: Vec<String>,
    up: Option<String>,
    down: Option<String>,
}

fn is_name(name: &str) -> bool {
    !name.is_empty()
        && name.len() <= 255
        && !name.starts_with(['-', '.', '#'])
        && name.bytes().all(|byte| byte > b' ' && byte != 0x7f && byte != b'/')
}

/// What a service directory has, by its listing.
struct Entry<'a> {
    name: &'a str,
    files: HashMap<String, bool>,
    folder: &'a Path,
}

impl Entry<'_> {
    fn list<'a>(folder: &'a Path, name: &'a str) -> Result<Entry<'a>, Fault> {
        let io = || Fault::Io(name.to_owned());
        let mut files = HashMap::new();
        for file in fs::read_dir(folder).map_err(|_| io())? {
            let file = file.map_err(|_| io())?;
            let kind = file.file_type().map_err(|_| io())?;
            let is_file = if kind.is_symlink() {
                fs::metadata(file.path()).is_ok_and(|found| found.is_file())
            } else {
                kind.is_file()
            };
            if let Ok(file) = file.file_name().into_string() {
                files.insert(file, is_file);
            }
        }
        Ok(Entry { name, files, folder })
    }

    fn has(&self, file: &str) -> bool {
        self.files.contains_key(file)
    }

    fn text(&self, file: &str) -> Result<Option<String>, Fault> {
        let name = || self.name.to_owned();
        match self.files.get(file) {
            None => return Ok(None),
            Some(false) => return Err(Fault::Io(name())),
            Some(true) => {}
        }
        let mut bytes = Vec::new();
        let open = File::open(self.folder.join(file)).map_err(|_| Fault::Io(name()))?;
        open.take(MOST_TEXT + 1)
            .read_to_end(&mut bytes)
            .map_err(|_| Fault::Io(name()))?;
        if bytes.len() as u64 > MOST_TEXT {
            return Err(Fault::TooLong(name()));
        }
        match String::from_utf8(bytes) {
            Ok(text) if !text.contains('\0') => Ok(Some(text)),
            _ => Err(Fault::NotText(name())),
        }
    }

    fn limit(&self, file: &str) -> Result<u32, Fault> {
        match self.text(file)? {
            None => Ok(0),
            Some(text) => {
                let digits = text.strip_suffix('\n').unwrap_or(&text);
                if digits.len() > 10 || digits.starts_with('+') {
                    return Err(Fault::BadTimeout(self.name.to_owned()));
                }
                digits.parse().map_err(|_| Fault::BadTimeout(self.name.to_owned()))
            }
        }
    }

    fn names(&self, file: &str) -> Result<Vec<String>, Fault> {
        let mut names = Vec::new();
        for line in self.text(file)?.unwrap_or_default().split('\n') {
            let name = line.trim_matches([' ', '\t']);
            if name.is_empty() || name.starts_with('#') {
                continue;
            }
            if !is_name(name) {
                return Err(Fault::BadName(self.name.to_owned()));
            }
            names.push(name.to_owned());
        }
        names.sort_unstable();
        names.dedup();
        Ok(names)
    }

    fn service(&self) -> Result<Service, Fault> {
        let name = || self.name.to_owned();
        let is_oneshot = match self.text("type")?.as_deref() {
            Some("oneshot\n" | "oneshot") => true,
            Some("longrun\n" | "longrun") => false,
            _ => return Err(Fault::BadType(name())),
        };
        let (mut up, mut down) = (None, None);
        if is_oneshot {
            up = Some(self.text("up")?.ok_or_else(|| Fault::NoUp(name()))?);
            down = self.text("down")?;
        } else if !self.has("run") {
            return Err(Fault::NoRun(name()));
        }
        Ok(Service {
            name: name(),
            is_oneshot,
            limits: (self.limit("timeout-up")?, self.limit("timeout-down")?),
            essential: self.has("flag-essential"),
            needs: self.names("dependencies")?,
            up,
            down,
        })
    }
}

fn services(root: &Path) -> Result<Vec<Service>, Fault> {
    let io = || Fault::Io(String::new());
    let mut names = Vec::new();
    for entry in fs::read_dir(root).map_err(|_| io())? {
        let entry = entry.map_err(|_| io())?;
        let kind = entry.file_type().map_err(|_| io())?;
        let name = entry.file_name().into_string().map_err(|_| io())?;
        let is_folder = if kind.is_symlink() {
            fs::metadata(entry.path()).is_ok_and(|found| found.is_dir())
        } else {
            kind.is_dir()
        };
        if is_folder && !name.starts_with('.') {
            names.push(name);
        }
    }
    names.sort_unstable();
    let mut services = Vec::new();
    for name in names {
        if !is_name(&name) {
            return Err(Fault::BadName(name));
        }
        services.push(Entry::list(&root.join(&name), &name)?.service()?);
    }
    if services.len() > MOST {
        return Err(Fault::TooMany);
    }
    Ok(services)
}

/// Tests that all names are known, and that no service needs itself along a path.
fn check(services: &[Service]) -> Result<(), Fault> {
    let places: HashMap<&str, usize> =
        services.iter().enumerate().map(|(place, it)| (it.name.as_str(), place)).collect();
    let mut needs = Vec::new();
    let mut waiting = vec![0usize; services.len()];
    let mut needed_by = vec![Vec::new(); services.len()];
    for (place, service) in services.iter().enumerate() {
        for need in &service.needs {
            let Some(at) = places.get(need.as_str()) else {
                return Err(Fault::Unknown(service.name.clone(), need.clone()));
            };
            needed_by[*at].push(place);
            waiting[place] += 1;
        }
        if waiting[place] == 0 {
            needs.push(place);
        }
    }
    let mut placed = 0;
    while let Some(place) = needs.pop() {
        placed += 1;
        for &other in &needed_by[place] {
            waiting[other] -= 1;
            if waiting[other] == 0 {
                needs.push(other);
            }
        }
    }
    match waiting.iter().position(|&count| count > 0) {
        Some(place) if placed < services.len() => Err(Fault::Cycle(services[place].name.clone())),
        _ => Ok(()),
    }
}

fn write_script(out: &mut Vec<u8>, way: &str, text: Option<&str>) {
    match text {
        Some(text) => {
            let _ = write!(out, "{way} {}\n{text}\n", text.len());
        }
        None => {
            let _ = writeln!(out, "{way} -");
        }
    }
}

fn text_of(services: &[Service]) -> Vec<u8> {
    let mut out = Vec::new();
    let _ = write!(out, "undorc-db 1\nservices {}\n", services.len());
    for service in services {
        let kind = if service.is_oneshot { "oneshot" } else { "longrun" };
        let flag = if service.essential { "essential" } else { "plain" };
        let (up, down) = service.limits;
        let _ = write!(out, "service {} {kind} {flag} {up} {down}\nneeds", service.name);
        for need in &service.needs {
            let _ = write!(out, " {need}");
        }
        out.push(b'\n');
        if service.is_oneshot {
            write_script(&mut out, "up", service.up.as_deref());
            write_script(&mut out, "down", service.down.as_deref());
        } else {
            out.extend_from_slice(b"producer -\n");
        }
    }
    out.extend_from_slice(b"bundles 0\nend\n");
    out
}

fn main() -> ExitCode {
    let root = std::env::args().nth(1).unwrap_or_default();
    let compiled = services(Path::new(&root)).and_then(|services| {
        check(&services)?;
        Ok(text_of(&services))
    });
    match compiled {
        Ok(text) if stdout().write_all(&text).is_ok() => ExitCode::SUCCESS,
        Ok(_) => ExitCode::from(111),
        Err(fault) => {
            eprintln!("{fault:?}");
            ExitCode::FAILURE
        }
    }
}
