//! Reads the text of a database from standard input as `undorc db check` does, in plain Rust: form,
//! order, known names and cycles, and all of it into tables. It prints the fault, if there is one,
//! and exits with status 1 then. `reading.sh` counts its instructions.
use std::collections::HashMap;
use std::hash::{BuildHasherDefault, Hasher};
use std::io::Read;
use std::process::ExitCode;
use std::str::from_utf8;

const MOST: usize = 4096;
const MOST_TEXT: u32 = 65_536;

/// A quick hash, since no name is chosen to collide.
#[derive(Default)]
struct Quick(u64);

impl Hasher for Quick {
    fn write(&mut self, bytes: &[u8]) {
        for chunk in bytes.chunks(8) {
            let mut word = [0; 8];
            word[..chunk.len()].copy_from_slice(chunk);
            self.write_u64(u64::from_le_bytes(word));
        }
    }

    fn write_u64(&mut self, word: u64) {
        self.0 = (self.0.rotate_left(5) ^ word).wrapping_mul(0x517c_c1b7_2722_0a95);
    }

    fn write_usize(&mut self, word: usize) {
        self.write_u64(word as u64);
    }

    fn finish(&self) -> u64 {
        self.0.rotate_left(26)
    }
}

type Table<V> = HashMap<Vec<u8>, V, BuildHasherDefault<Quick>>;

#[derive(Debug)]
#[allow(dead_code)]
enum Fault {
    Bad(usize),
    Version,
    NotSorted,
    Cyclic,
    TooMany,
    Dangling,
}

#[derive(PartialEq, Clone, Copy)]
enum Kind {
    Oneshot,
    Longrun,
}

/// What the text says of a service. Other services stand by their names.
struct ServiceForm<'a> {
    name: &'a [u8],
    kind: Kind,
    essential: bool,
    limits: (u32, u32),
    needs: Vec<&'a [u8]>,
    producer_for: Option<&'a [u8]>,
    up: Option<&'a str>,
    down: Option<&'a str>,
}

struct BundleForm<'a> {
    name: &'a [u8],
    members: Vec<&'a [u8]>,
}

/// A service of a database. Other services stand by their places.
#[allow(dead_code)]
struct Service {
    kind: Kind,
    essential: bool,
    limits: (u32, u32),
    needs: Vec<u16>,
    producer_for: Option<u16>,
    up: Option<String>,
    down: Option<String>,
}

#[allow(dead_code)]
struct Db {
    names: Table<u16>,
    services: Vec<Service>,
    bundles: Table<Vec<u64>>,
}

/// The text, and how far it was read.
struct Input<'a> {
    text: &'a [u8],
    at: usize,
}

impl<'a> Input<'a> {
    /// The words after this first word of the next line.
    fn words(&mut self, first: &[u8]) -> Result<impl Iterator<Item = &'a [u8]> + use<'a>, Fault> {
        let rest = &self.text[self.at..];
        let end = rest.iter().position(|&byte| byte == b'\n').ok_or(Fault::Bad(self.at))?;
        let line = &rest[..end];
        let mut words = line.split(|&byte| byte == b' ');
        if words.next() != Some(first) || from_utf8(line).is_err() {
            return Err(Fault::Bad(self.at));
        }
        self.at += end + 1;
        Ok(words)
    }

    /// The one word after this first word of the next line.
    fn word(&mut self, first: &[u8]) -> Result<&'a [u8], Fault> {
        let at = self.at;
        let mut words = self.words(first)?;
        match (words.next(), words.next()) {
            (Some(word), None) => Ok(word),
            _ => Err(Fault::Bad(at)),
        }
    }

    /// The number of values after this word.
    fn count(&mut self, first: &[u8]) -> Result<usize, Fault> {
        let at = self.at;
        let word = self.word(first)?;
        if !is_number(word) {
            return Err(Fault::Bad(at));
        }
        let count = number(word).ok_or(Fault::TooMany)? as usize;
        if count <= MOST { Ok(count) } else { Err(Fault::TooMany) }
    }

    /// The text of a oneshot that is as long as the word says. Its first line began at `line`.
    fn script(&mut self, long: &[u8], line: usize) -> Result<&'a str, Fault> {
        let long = number(long).filter(|&long| long <= MOST_TEXT).ok_or(Fault::Bad(line))? as usize;
        let rest = &self.text[self.at..];
        if rest.len() <= long || rest[long] != b'\n' || rest[..long].contains(&0) {
            return Err(Fault::Bad(line));
        }
        self.at += long + 1;
        from_utf8(&rest[..long]).map_err(|_| Fault::Bad(line))
    }
}

fn is_number(word: &[u8]) -> bool {
    !word.is_empty()
        && word.iter().all(u8::is_ascii_digit)
        && (word.len() == 1 || word[0] != b'0')
}

fn number(word: &[u8]) -> Option<u32> {
    if !is_number(word) {
        return None;
    }
    word.iter().try_fold(0_u32, |value, digit| {
        value.checked_mul(10)?.checked_add(u32::from(digit - b'0'))
    })
}

fn is_name(word: &[u8]) -> bool {
    !word.is_empty()
        && word.len() <= 255
        && word[0] != b'-'
        && word[0] != b'#'
        && word.iter().all(|&byte| byte > 32 && byte != b'/' && byte != 127)
        && !word.starts_with(b"s6rc-")
}

/// The words, if each is a name.
fn names<'a>(words: impl Iterator<Item = &'a [u8]>, at: usize) -> Result<Vec<&'a [u8]>, Fault> {
    let mut names = Vec::new();
    for word in words {
        if !is_name(word) {
            return Err(Fault::Bad(at));
        }
        names.push(word);
    }
    Ok(names)
}

fn service<'a>(input: &mut Input<'a>) -> Result<ServiceForm<'a>, Fault> {
    let at = input.at;
    let mut words = input.words(b"service")?;
    let mut word = || words.next().ok_or(Fault::Bad(at));
    let name = word()?;
    let kind = match word()? {
        b"oneshot" => Kind::Oneshot,
        b"longrun" => Kind::Longrun,
        _ => return Err(Fault::Bad(at)),
    };
    let essential = match word()? {
        b"essential" => true,
        b"plain" => false,
        _ => return Err(Fault::Bad(at)),
    };
    let (limit_up, limit_down) = (number(word()?), number(word()?));
    let (Some(limit_up), Some(limit_down)) = (limit_up, limit_down) else {
        return Err(Fault::Bad(at));
    };
    if !is_name(name) || words.next().is_some() {
        return Err(Fault::Bad(at));
    }
    let at = input.at;
    let needs = names(input.words(b"needs")?, at)?;
    let limits = (limit_up, limit_down);
    let (producer_for, up, down) = (None, None, None);
    let mut form = ServiceForm { name, kind, essential, limits, needs, producer_for, up, down };
    let at = input.at;
    if kind == Kind::Longrun {
        let fed = input.word(b"producer")?;
        if fed != b"-" {
            form.producer_for = Some(fed);
            if !is_name(fed) {
                return Err(Fault::Bad(at));
            }
        }
        return Ok(form);
    }
    let long = input.word(b"up")?;
    form.up = Some(input.script(long, at)?);
    let at = input.at;
    let long = input.word(b"down")?;
    if long != b"-" {
        form.down = Some(input.script(long, at)?);
    }
    Ok(form)
}

fn bundle<'a>(input: &mut Input<'a>) -> Result<BundleForm<'a>, Fault> {
    let at = input.at;
    let mut words = input.words(b"bundle")?;
    let name = words.next().filter(|name| is_name(name)).ok_or(Fault::Bad(at))?;
    Ok(BundleForm { name, members: names(words, at)? })
}

type Forms<'a> = (Vec<ServiceForm<'a>>, Vec<BundleForm<'a>>);

fn forms(text: &[u8]) -> Result<Forms<'_>, Fault> {
    let mut input = Input { text, at: 0 };
    let version = input.word(b"undorc-db")?;
    if !is_number(version) {
        return Err(Fault::Bad(0));
    }
    if version != b"1" {
        return Err(Fault::Version);
    }
    let count = input.count(b"services")?;
    let services = (0..count).map(|_| service(&mut input)).collect::<Result<_, _>>()?;
    let count = input.count(b"bundles")?;
    let bundles = (0..count).map(|_| bundle(&mut input)).collect::<Result<_, _>>()?;
    let at = input.at;
    if input.words(b"end")?.next().is_some() {
        return Err(Fault::Bad(at));
    }
    if input.at < text.len() { Err(Fault::Bad(input.at)) } else { Ok((services, bundles)) }
}

fn are_sorted(services: &[ServiceForm], bundles: &[BundleForm]) -> bool {
    services.is_sorted_by(|one, next| one.name < next.name)
        && services.iter().all(|service| service.needs.is_sorted_by(|one, next| one < next))
        && bundles.is_sorted_by(|one, next| one.name < next.name)
        && bundles.iter().all(|bundle| bundle.members.is_sorted_by(|one, next| one < next))
}

/// A set of services with these names.
fn set_of(names: &Table<u16>, members: &[&[u8]]) -> Result<Vec<u64>, Fault> {
    let mut set = vec![0; names.len().div_ceil(64)];
    for &member in members {
        let id = usize::from(*names.get(member).ok_or(Fault::Dangling)?);
        set[id / 64] |= 1 << (id % 64);
    }
    Ok(set)
}

fn service_of(
    form: &ServiceForm,
    names: &Table<u16>,
    forms: &[ServiceForm],
) -> Result<Service, Fault> {
    let id_of = |name: &[u8]| names.get(name).copied().ok_or(Fault::Dangling);
    let needs = form.needs.iter().map(|need| id_of(need)).collect::<Result<Vec<_>, _>>()?;
    let producer_for = form.producer_for.map(id_of).transpose()?;
    if let Some(id) = producer_for {
        if forms[usize::from(id)].kind != Kind::Longrun || !needs.contains(&id) {
            return Err(Fault::Dangling);
        }
    }
    Ok(Service {
        kind: form.kind,
        essential: form.essential,
        limits: form.limits,
        needs,
        producer_for,
        up: form.up.map(String::from),
        down: form.down.map(String::from),
    })
}

/// Whether a service needs itself along a path: a service is taken once all its needs are.
fn is_cyclic(services: &[Service]) -> bool {
    let mut left: Vec<usize> = services.iter().map(|service| service.needs.len()).collect();
    let mut needed_by = vec![Vec::new(); services.len()];
    for (id, service) in services.iter().enumerate() {
        for &need in &service.needs {
            needed_by[usize::from(need)].push(id as u16);
        }
    }
    let mut ready: Vec<usize> = (0..services.len()).filter(|&id| left[id] == 0).collect();
    let mut taken = 0;
    while let Some(id) = ready.pop() {
        taken += 1;
        for &other in &needed_by[id] {
            let other = usize::from(other);
            left[other] -= 1;
            if left[other] == 0 {
                ready.push(other);
            }
        }
    }
    taken < services.len()
}

fn read(text: &[u8]) -> Result<Db, Fault> {
    let (forms, bundle_forms) = forms(text)?;
    if !are_sorted(&forms, &bundle_forms) {
        return Err(Fault::NotSorted);
    }
    let mut names = Table::with_capacity_and_hasher(forms.len(), Default::default());
    for (id, form) in forms.iter().enumerate() {
        names.insert(form.name.to_vec(), id as u16);
    }
    let services = forms
        .iter()
        .map(|form| service_of(form, &names, &forms))
        .collect::<Result<Vec<_>, _>>()?;
    let mut bundles = Table::with_capacity_and_hasher(bundle_forms.len(), Default::default());
    for form in &bundle_forms {
        if names.contains_key(form.name) {
            return Err(Fault::Dangling);
        }
        bundles.insert(form.name.to_vec(), set_of(&names, &form.members)?);
    }
    if is_cyclic(&services) {
        return Err(Fault::Cyclic);
    }
    Ok(Db { names, services, bundles })
}

fn main() -> ExitCode {
    let mut text = Vec::new();
    if std::io::stdin().read_to_end(&mut text).is_err() {
        return ExitCode::from(111);
    }
    match read(&text) {
        Ok(_) => ExitCode::SUCCESS,
        Err(fault) => {
            println!("{fault:?}");
            ExitCode::FAILURE
        }
    }
}
