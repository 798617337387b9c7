//! The rack as an ordinary Rust program, to time the proved one against. It does what `mind run
//! RACK SCHEDULE`, `mind journal RACK SCHEDULE`, `mind make RACK COUNT SEED` and `mind load RACK
//! COUNT SEED` do, over the same files and with the same texts, and nothing in it is proved: the
//! counts are kept while the rack runs, and no log is replayed.
//!
//! Regions keep their size here: an epoch changes nothing and no entries are merged, and a schedule
//! has no commands. Files are read for what is in them: a malformed one is refused with a line and
//! the status 2, but the line may name another fault.
//!
//! Built by `rustc -C opt-level=3 -C codegen-units=1 bench/plain/main.rs`.
#![forbid(unsafe_code)]

use std::collections::VecDeque;
use std::fs::File;
use std::io::{Read, Write};
use std::ops::{Range, RangeInclusive};
use std::process::ExitCode;
use std::rc::Rc;

const USAGE: &str = "usage: mind run RACK SCHEDULE | journal RACK SCHEDULE \
    | make RACK COUNT SEED | load RACK COUNT SEED";
const PAGES_OF_A_DOMAIN: u32 = 1 << 20;
const MOST_COUNT: u64 = 200_000;
const MOST_EVENTS: u64 = 1_000_000;
const RACK_BYTES: u64 = 65_536;
const IMAGE_BYTES: u64 = 65_536;
const SCHEDULE_BYTES: u64 = 4_194_304;

/// Why nothing was run.
enum Failure {
    Usage,
    /// The line that says what was refused.
    Refused(String),
    Unread,
}

fn refused<T>(line: impl Into<String>) -> Result<T, Failure> {
    Err(Failure::Refused(line.into()))
}

fn main() -> ExitCode {
    let words: Vec<String> = std::env::args_os()
        .skip(1)
        .map_while(|word| word.into_string().ok())
        .collect();
    let words: Vec<&str> = words.iter().map(String::as_str).collect();
    let (text, status) = match answer(&words) {
        Ok(text) => (text, 0),
        Err(Failure::Usage) => (format!("{USAGE}\n").into_bytes(), 1),
        Err(Failure::Refused(line)) => (format!("{line}\n").into_bytes(), 2),
        Err(Failure::Unread) => (Vec::new(), 3),
    };
    match std::io::stdout().write_all(&text) {
        Ok(()) => ExitCode::from(status),
        Err(_) => ExitCode::from(4),
    }
}

/// The text that the words ask for.
fn answer(words: &[&str]) -> Result<Vec<u8>, Failure> {
    match *words {
        ["run", rack, schedule] => Ok(ran_by_file(rack, schedule, Log::counting())?.0),
        ["journal", rack, schedule] => Ok(ran_by_file(rack, schedule, Log::writing())?.1),
        ["make", rack, count, seed] => {
            let (count, seed) = (count_of(count)?, seed_of(seed)?);
            let plan = Plan::read(rack)?;
            Ok(text_of(&generated(&plan, count, seed), plan.links))
        }
        ["load", rack, count, seed] => {
            let (count, seed) = (count_of(count)?, seed_of(seed)?);
            let plan = Plan::read(rack)?;
            let programs = Program::read_all(&plan)?;
            Ok(ran(
                &plan,
                &programs,
                &generated(&plan, count, seed),
                Log::counting(),
            )
            .0)
        }
        _ => Err(Failure::Usage),
    }
}

fn count_of(word: &str) -> Result<u32, Failure> {
    number(word.as_bytes(), MOST_COUNT)
        .map(|count| count as u32)
        .ok_or(Failure::Usage)
}

fn seed_of(word: &str) -> Result<u32, Failure> {
    number(word.as_bytes(), u32::MAX.into())
        .map(|seed| seed as u32)
        .ok_or(Failure::Usage)
}

/// The report and the journal of a run whose schedule is in a file.
fn ran_by_file(rack: &str, schedule: &str, log: Log) -> Result<(Vec<u8>, Vec<u8>), Failure> {
    let plan = Plan::read(rack)?;
    let programs = Program::read_all(&plan)?;
    let events = read_schedule(
        &file(schedule, SCHEDULE_BYTES, || "refused schedule long".into())?,
        &plan,
    )?;
    Ok(ran(&plan, &programs, &events, log))
}

/// The report and the journal of a run.
fn ran(plan: &Plan, programs: &[Program], events: &[Event], log: Log) -> (Vec<u8>, Vec<u8>) {
    let mut rack = Rack::start(plan, programs, log);
    rack.run(events);
    let report = rack.report();
    (report, rack.log.journal.unwrap_or_default())
}

/// The bytes of a file that has at most `limit` of them.
fn file(name: &str, limit: u64, long: impl Fn() -> String) -> Result<Vec<u8>, Failure> {
    let mut bytes = Vec::new();
    let file = File::open(name).map_err(|_| Failure::Unread)?;
    file.take(limit + 1)
        .read_to_end(&mut bytes)
        .map_err(|_| Failure::Unread)?;
    if bytes.len() as u64 > limit {
        refused(long())
    } else {
        Ok(bytes)
    }
}

/// A number in decimal, or in hexadecimal behind `0x`, up to `limit`.
fn number(word: &[u8], limit: u64) -> Option<u64> {
    match word {
        [b'0', b'x', digits @ ..] => number_by::<16>(digits, limit),
        digits => number_by::<10>(digits, limit),
    }
}

fn number_by<const RADIX: u32>(digits: &[u8], limit: u64) -> Option<u64> {
    let mut value = 0;
    for digit in digits {
        value = value * u64::from(RADIX) + u64::from(char::from(*digit).to_digit(RADIX)?);
        if value > limit {
            return None;
        }
    }
    (!digits.is_empty()).then_some(value)
}

// -------------------------------------------------------------------------------------------------
// Pages and where they lie
// -------------------------------------------------------------------------------------------------

/// A page of a domain, numbered through all domains.
#[derive(Clone, Copy, PartialEq, Eq, PartialOrd, Ord)]
struct Page(u32);

impl Page {
    fn new(domain: u32, number: u32) -> Page {
        Page(domain * PAGES_OF_A_DOMAIN + number)
    }

    fn of(domain: u8, address: u32) -> Page {
        Page::new(domain.into(), address >> 12)
    }

    fn domain(self) -> u32 {
        self.0 / PAGES_OF_A_DOMAIN
    }

    fn number(self) -> u32 {
        self.0 % PAGES_OF_A_DOMAIN
    }
}

#[derive(Clone, Copy, PartialEq, Eq)]
enum Permission {
    None,
    Read,
    ReadWrite,
}

impl Permission {
    fn allows(self, write: bool) -> bool {
        self == Permission::ReadWrite || self == Permission::Read && !write
    }
}

/// A page that has a home, by its place among all of them in the order of pages.
#[derive(Clone, Copy, PartialEq, Eq, PartialOrd, Ord)]
struct Home(u16);

impl Home {
    fn index(self) -> usize {
        self.0.into()
    }
}

/// What the rack knows of a page that has a home.
struct HomePage {
    page: Page,
    memory: u8,
    /// The number of the page at its memory blade.
    physical: u32,
    region: RegionNumber,
    permission: Permission,
}

/// A region by its place among all that have a home page, in the order of pages.
#[derive(Clone, Copy, PartialEq, Eq, PartialOrd, Ord)]
struct RegionNumber(u16);

impl RegionNumber {
    fn index(self) -> usize {
        self.0.into()
    }
}

/// An aligned block of pages, of which the directory has one entry.
struct Region {
    base: Page,
    homes: Range<u16>,
}

const CHUNK: usize = 1024;
const ABSENT: u16 = u16::MAX;

/// All pages that have a home, and the way to them: a table of chunks of pages, of which those
/// without homes share one.
struct Homes {
    pages: Vec<HomePage>,
    regions: Vec<Region>,
    chunks: Vec<u16>,
    places: Vec<[u16; CHUNK]>,
}

impl Homes {
    /// Homes as (page, memory blade, number there), in the order of pages, in regions of 2^`log`
    /// pages.
    fn new(lying: &[(Page, u8, u32)], log: u32) -> Homes {
        let chunks = vec![0; (16 * PAGES_OF_A_DOMAIN) as usize / CHUNK];
        let mut homes = Homes {
            pages: Vec::with_capacity(lying.len()),
            regions: Vec::new(),
            chunks,
            places: vec![[ABSENT; CHUNK]],
        };
        for (place, &(page, memory, physical)) in lying.iter().enumerate() {
            let place = place as u16;
            let base = Page(page.0 >> log << log);
            match homes.regions.last_mut() {
                Some(region) if region.base == base => region.homes.end = place + 1,
                _ => homes.regions.push(Region {
                    base,
                    homes: place..place + 1,
                }),
            }
            let region = RegionNumber(homes.regions.len() as u16 - 1);
            homes.pages.push(HomePage {
                page,
                memory,
                physical,
                region,
                permission: Permission::None,
            });
            homes.enter(page, place);
        }
        homes
    }

    fn enter(&mut self, page: Page, place: u16) {
        let page = page.0 as usize;
        if self.chunks[page / CHUNK] == 0 {
            self.chunks[page / CHUNK] = self.places.len() as u16;
            self.places.push([ABSENT; CHUNK]);
        }
        self.places[usize::from(self.chunks[page / CHUNK])][page % CHUNK] = place;
    }

    fn find(&self, page: Page) -> Option<Home> {
        let page = page.0 as usize;
        let place = self.places[usize::from(self.chunks[page / CHUNK])][page % CHUNK];
        (place != ABSENT).then_some(Home(place))
    }

    fn page(&self, home: Home) -> &HomePage {
        &self.pages[home.index()]
    }

    /// How many aligned blocks have one permission while the blocks around them have not: those
    /// that each run of pages of one permission is made of.
    fn cover(&self) -> usize {
        let mapped: Vec<&HomePage> = self
            .pages
            .iter()
            .filter(|home| home.permission != Permission::None)
            .collect();
        mapped
            .chunk_by(|one, next| {
                next.page.0 == one.page.0 + 1
                    && next.page.domain() == one.page.domain()
                    && next.permission == one.permission
            })
            .map(|run| blocks_of(run[0].page.number(), run.len() as u32))
            .sum()
    }
}

/// How many aligned blocks a run of pages is made of, each the greatest that fits.
fn blocks_of(first: u32, pages: u32) -> usize {
    let (mut first, mut left, mut blocks) = (first, pages, 0);
    while left > 0 {
        let block = (1 << left.ilog2()).min(1 << first.trailing_zeros().min(20));
        first += block;
        left -= block;
        blocks += 1;
    }
    blocks
}

// -------------------------------------------------------------------------------------------------
// The rack file
// -------------------------------------------------------------------------------------------------

struct ImagePlan {
    name: String,
    at: u32,
}

struct ThreadPlan {
    blade: u8,
    domain: u8,
    image: u8,
    queue: usize,
}

struct Plan {
    slots: usize,
    /// The logarithm of the pages of a region.
    region: u32,
    /// The frames of each compute blade.
    frames: Vec<usize>,
    /// The home pages of each memory blade.
    memories: Vec<u32>,
    images: Vec<ImagePlan>,
    threads: Vec<ThreadPlan>,
    homes: Homes,
    links: Links,
}

impl Plan {
    fn read(name: &str) -> Result<Plan, Failure> {
        let bytes = file(name, RACK_BYTES, || "refused rack long".into())?;
        let text = std::str::from_utf8(&bytes).ok();
        match text.and_then(toml::read) {
            Some(top) => Plan::of(&Fields(&top)),
            None => refused("refused rack toml"),
        }
    }

    fn of(top: &Fields) -> Result<Plan, Failure> {
        top.only(&[
            "format",
            "slots",
            "protect",
            "outliers",
            "region",
            "most",
            "threshold",
            "policy",
            "blade",
            "memory",
            "image",
            "thread",
            "map",
        ])?;
        top.integer("format", 1..=1)?;
        let slots = top.integer("slots", 1..=4096)? as usize;
        let protect = top.integer("protect", 1..=4096)? as usize;
        top.integer("outliers", 0..=1024)?;
        let region = top.integer("region", 0..=9)?;
        top.integer("most", region..=9)?;
        top.integer("threshold", 0..=1_000_000)?;
        if top.get("policy").is_some() && top.text("policy")? != "threshold" {
            return refused("refused rack limit policy");
        }
        let frames = top
            .tables("blade", 1..=8)?
            .map(frames_of)
            .collect::<Result<Vec<_>, _>>()?;
        let memories = top
            .tables("memory", 1..=8)?
            .map(spans_of_homes)
            .collect::<Result<Vec<_>, _>>()?;
        let images = top
            .tables("image", 1..=16)?
            .map(ImagePlan::of)
            .collect::<Result<Vec<_>, _>>()?;
        let threads = top
            .tables("thread", 1..=64)?
            .map(|table| ThreadPlan::of(table, frames.len() as u32, images.len() as u32))
            .collect::<Result<Vec<_>, _>>()?;
        let mut homes = Homes::new(&lying(&memories)?, region);
        if top.get("map").is_some() {
            top.tables("map", 0..=256)?
                .try_for_each(|table| map(table, &mut homes))?;
        }
        if homes.cover() > protect {
            return refused("refused rack slots map");
        }
        let links = Links {
            blades: frames.len() as u8,
            memories: memories.len() as u8,
        };
        let memories = memories
            .iter()
            .map(|spans| spans.iter().map(|span| span.pages).sum())
            .collect();
        Ok(Plan {
            slots,
            region,
            frames,
            memories,
            images,
            threads,
            homes,
            links,
        })
    }
}

fn frames_of(table: Fields) -> Result<usize, Failure> {
    table.only(&["frames"])?;
    Ok(table.integer("frames", 1..=1024)? as usize)
}

impl ImagePlan {
    fn of(table: Fields) -> Result<ImagePlan, Failure> {
        table.only(&["name", "at"])?;
        let name = table.text("name")?;
        let at = table.integer("at", 0..=4_294_967_292)?;
        if !(1..=64).contains(&name.len())
            || !name.bytes().all(|byte| byte.is_ascii_graphic())
            || at % 4 != 0
        {
            return refused("refused rack limit image");
        }
        Ok(ImagePlan {
            name: name.into(),
            at,
        })
    }
}

impl ThreadPlan {
    fn of(table: Fields, blades: u32, images: u32) -> Result<ThreadPlan, Failure> {
        table.only(&["blade", "domain", "image", "queue"])?;
        Ok(ThreadPlan {
            blade: table.integer("blade", 0..=blades - 1)? as u8,
            domain: table.integer("domain", 0..=15)? as u8,
            image: table.integer("image", 0..=images - 1)? as u8,
            queue: table.integer("queue", 1..=64)? as usize,
        })
    }
}

/// Pages of one domain, one after another.
struct Span {
    first: Page,
    pages: u32,
}

impl Span {
    fn of(table: Fields) -> Result<Span, Failure> {
        let domain = table.integer("domain", 0..=15)?;
        let number = table.integer("page", 0..=PAGES_OF_A_DOMAIN - 1)?;
        let pages = table.integer("pages", 1..=4096.min(PAGES_OF_A_DOMAIN - number))?;
        Ok(Span {
            first: Page::new(domain, number),
            pages,
        })
    }

    fn iter(&self) -> impl Iterator<Item = Page> + use<> {
        (self.first.0..self.first.0 + self.pages).map(Page)
    }
}

fn spans_of_homes(table: Fields) -> Result<Vec<Span>, Failure> {
    table.only(&["spare", "homes"])?;
    table.integer("spare", 0..=4096)?;
    table
        .tables("homes", 1..=16)?
        .map(|home| {
            home.only(&["domain", "page", "pages"])?;
            Span::of(home)
        })
        .collect()
}

/// Where each home page lies, in the order of pages: its memory blade and its number there.
fn lying(memories: &[Vec<Span>]) -> Result<Vec<(Page, u8, u32)>, Failure> {
    let mut lying = Vec::new();
    for (memory, spans) in (0..).zip(memories) {
        let pages = spans.iter().flat_map(Span::iter);
        lying.extend(
            (0..)
                .zip(pages)
                .map(|(physical, page)| (page, memory, physical)),
        );
    }
    lying.sort_unstable_by_key(|&(page, ..)| page);
    if lying.len() > 16_384 {
        return refused("refused rack limit memory");
    }
    if lying.windows(2).any(|pair| pair[0].0 == pair[1].0) {
        return refused("refused rack overlap memory");
    }
    Ok(lying)
}

fn map(table: Fields, homes: &mut Homes) -> Result<(), Failure> {
    table.only(&["domain", "page", "pages", "perm"])?;
    let permission = match table.text("perm")? {
        "r" => Permission::Read,
        "rw" => Permission::ReadWrite,
        _ => return refused("refused rack limit map"),
    };
    for page in Span::of(table)?.iter() {
        let Some(home) = homes.find(page) else {
            return refused("refused rack unplaced map");
        };
        let home = &mut homes.pages[home.index()];
        if home.permission != Permission::None {
            return refused("refused rack overlap map");
        }
        home.permission = permission;
    }
    Ok(())
}

/// A table of the rack file.
#[derive(Clone, Copy)]
struct Fields<'a>(&'a toml::Table);

impl<'a> Fields<'a> {
    fn get(&self, key: &str) -> Option<&'a toml::Value> {
        self.0
            .iter()
            .find(|(name, _)| name == key)
            .map(|(_, value)| value)
    }

    fn need(&self, key: &str) -> Result<&'a toml::Value, Failure> {
        self.get(key)
            .ok_or_else(|| Failure::Refused(format!("refused rack missing {key}")))
    }

    fn only(&self, keys: &[&str]) -> Result<(), Failure> {
        match self
            .0
            .iter()
            .find(|(name, _)| !keys.contains(&name.as_str()))
        {
            Some((name, _)) => refused(format!("refused rack unknown {name}")),
            None => Ok(()),
        }
    }

    fn integer(&self, key: &str, range: RangeInclusive<u32>) -> Result<u32, Failure> {
        let toml::Value::Integer(value) = self.need(key)? else {
            return refused(format!("refused rack kind {key}"));
        };
        if (i64::from(*range.start())..=i64::from(*range.end())).contains(value) {
            Ok(*value as u32)
        } else {
            refused(format!("refused rack limit {key}"))
        }
    }

    fn text(&self, key: &str) -> Result<&'a str, Failure> {
        match self.need(key)? {
            toml::Value::Text(text) => Ok(text),
            _ => refused(format!("refused rack kind {key}")),
        }
    }

    fn tables(
        &self,
        key: &str,
        many: RangeInclusive<usize>,
    ) -> Result<impl Iterator<Item = Fields<'a>> + use<'a>, Failure> {
        let toml::Value::Array(values) = self.need(key)? else {
            return refused(format!("refused rack kind {key}"));
        };
        if !many.contains(&values.len()) {
            return refused(format!("refused rack limit {key}"));
        }
        let tables = values.iter().map(|value| match value {
            toml::Value::Table(table) => Some(Fields(table)),
            _ => None,
        });
        match tables.collect::<Option<Vec<_>>>() {
            Some(tables) => Ok(tables.into_iter()),
            None => refused(format!("refused rack kind {key}")),
        }
    }
}

/// As much of TOML as rack files need: integers, texts of one line, arrays, tables in braces, and
/// arrays of tables.
mod toml {
    pub enum Value {
        Integer(i64),
        Text(String),
        Array(Vec<Value>),
        Table(Table),
    }

    pub type Table = Vec<(String, Value)>;

    /// The top table of a text, None where it is not TOML of this kind.
    pub fn read(text: &str) -> Option<Table> {
        let mut reader = Reader { text, at: 0 };
        let mut top = Table::new();
        let mut array = None;
        loop {
            reader.skip_lines();
            if reader.at == text.len() {
                return Some(top);
            }
            if reader.takes("[[") {
                array = Some(reader.header(&mut top)?);
            } else {
                let table = match array {
                    Some(place) => last_table(&mut top, place)?,
                    None => &mut top,
                };
                reader.pair(table)?;
            }
            reader.end_line()?;
        }
    }

    /// The table that stands last in the array at a place of the top table.
    fn last_table(top: &mut Table, place: usize) -> Option<&mut Table> {
        match &mut top[place].1 {
            Value::Array(values) => match values.last_mut()? {
                Value::Table(table) => Some(table),
                _ => None,
            },
            _ => None,
        }
    }

    struct Reader<'a> {
        text: &'a str,
        at: usize,
    }

    impl Reader<'_> {
        fn rest(&self) -> &str {
            &self.text[self.at..]
        }

        fn takes(&mut self, token: &str) -> bool {
            let there = self.rest().starts_with(token);
            if there {
                self.at += token.len();
            }
            there
        }

        fn need(&mut self, token: &str) -> Option<()> {
            self.takes(token).then_some(())
        }

        fn take_while(&mut self, is: impl Fn(char) -> bool) -> &str {
            let rest = &self.text[self.at..];
            let end = rest.find(|letter| !is(letter)).unwrap_or(rest.len());
            self.at += end;
            &rest[..end]
        }

        fn skip_blanks(&mut self) {
            self.take_while(|letter| letter == ' ' || letter == '\t');
        }

        /// Skips blanks, line ends and comments.
        fn skip_lines(&mut self) {
            loop {
                self.take_while(|letter| matches!(letter, ' ' | '\t' | '\r' | '\n'));
                if !self.takes("#") {
                    return;
                }
                self.take_while(|letter| letter != '\n');
            }
        }

        /// Skips what may stand behind a pair or a header, up to the line's end.
        fn end_line(&mut self) -> Option<()> {
            self.skip_blanks();
            if self.takes("#") {
                self.take_while(|letter| letter != '\n');
            }
            (self.rest().is_empty() || self.takes("\n") || self.takes("\r\n")).then_some(())
        }

        /// Reads the rest of `[[key]]`, adds a table to that array, and gives the array's place in
        /// the top table.
        fn header(&mut self, top: &mut Table) -> Option<usize> {
            self.skip_blanks();
            let key = self.key()?;
            self.skip_blanks();
            self.need("]]")?;
            let place = match top.iter().position(|(name, _)| *name == key) {
                Some(place) => place,
                None => {
                    top.push((key, Value::Array(Vec::new())));
                    top.len() - 1
                }
            };
            let Value::Array(values) = &mut top[place].1 else {
                return None;
            };
            values.push(Value::Table(Table::new()));
            Some(place)
        }

        fn key(&mut self) -> Option<String> {
            match self.rest().chars().next()? {
                '"' | '\'' => self.string(),
                _ => {
                    let key = self.take_while(|letter| {
                        letter.is_ascii_alphanumeric() || letter == '_' || letter == '-'
                    });
                    (!key.is_empty()).then(|| key.into())
                }
            }
        }

        fn pair(&mut self, table: &mut Table) -> Option<()> {
            let key = self.key()?;
            self.skip_blanks();
            self.need("=")?;
            self.skip_blanks();
            let value = self.value()?;
            if table.iter().any(|(name, _)| *name == key) {
                return None;
            }
            table.push((key, value));
            Some(())
        }

        fn value(&mut self) -> Option<Value> {
            match self.rest().chars().next()? {
                '"' | '\'' => self.string().map(Value::Text),
                '[' => self.array().map(Value::Array),
                '{' => self.inline_table().map(Value::Table),
                _ => self.integer().map(Value::Integer),
            }
        }

        fn string(&mut self) -> Option<String> {
            if self.takes("'") {
                let text = self
                    .take_while(|letter| letter != '\'' && letter != '\n')
                    .to_owned();
                self.need("'")?;
                return Some(text);
            }
            self.need("\"")?;
            let mut text = String::new();
            loop {
                text.push_str(self.take_while(|letter| !matches!(letter, '"' | '\\' | '\n')));
                if self.takes("\"") {
                    return Some(text);
                }
                self.need("\\")?;
                let escaped = self.rest().chars().next()?;
                text.push(match escaped {
                    '"' | '\\' => escaped,
                    't' => '\t',
                    'n' => '\n',
                    'r' => '\r',
                    _ => return None,
                });
                self.at += 1;
            }
        }

        fn integer(&mut self) -> Option<i64> {
            let word = self.take_while(|letter| {
                letter.is_ascii_alphanumeric() || matches!(letter, '_' | '+' | '-')
            });
            let word = word.replace('_', "");
            match word.get(..2) {
                Some("0x") => i64::from_str_radix(&word[2..], 16).ok(),
                Some("0o") => i64::from_str_radix(&word[2..], 8).ok(),
                Some("0b") => i64::from_str_radix(&word[2..], 2).ok(),
                _ => word.parse().ok(),
            }
        }

        fn array(&mut self) -> Option<Vec<Value>> {
            self.need("[")?;
            let mut values = Vec::new();
            loop {
                self.skip_lines();
                if self.takes("]") {
                    return Some(values);
                }
                values.push(self.value()?);
                self.skip_lines();
                if !self.takes(",") {
                    self.need("]")?;
                    return Some(values);
                }
            }
        }

        fn inline_table(&mut self) -> Option<Table> {
            self.need("{")?;
            let mut table = Table::new();
            loop {
                self.skip_lines();
                if self.takes("}") {
                    return Some(table);
                }
                self.pair(&mut table)?;
                self.skip_lines();
                if !self.takes(",") {
                    self.need("}")?;
                    return Some(table);
                }
            }
        }
    }
}

// -------------------------------------------------------------------------------------------------
// The schedule
// -------------------------------------------------------------------------------------------------

#[derive(Clone, Copy)]
enum Event {
    Step {
        hart: u8,
    },
    Drain {
        hart: u8,
    },
    Evict {
        blade: u8,
        page: Page,
    },
    Deliver {
        wire: Wire,
        frame: u32,
    },
    Lose {
        wire: Wire,
        frame: u32,
    },
    Repeat {
        wire: Wire,
        frame: u32,
    },
    Resend {
        link: Link,
    },
    Epoch,
    Settle,
    /// So many rounds over all threads; all other events are one each.
    Run {
        rounds: u32,
    },
}

/// A link, by its place in the order of links.
#[derive(Clone, Copy, PartialEq, Eq)]
struct Link(u8);

/// A wire, by its place in the order of wires: each link's messages, then its acknowledgements.
#[derive(Clone, Copy, PartialEq, Eq)]
struct Wire(u8);

impl Link {
    fn messages(self) -> Wire {
        Wire(2 * self.0)
    }

    fn acknowledgements(self) -> Wire {
        Wire(2 * self.0 + 1)
    }
}

impl Wire {
    fn link(self) -> Link {
        Link(self.0 / 2)
    }

    fn carries_messages(self) -> bool {
        self.0 % 2 == 0
    }
}

/// What a link joins.
enum Way {
    /// From a compute blade to the switch, and back.
    Up(u8),
    Down(u8),
    /// From the switch to a memory blade, and back.
    To(u8),
    From,
}

/// The links of a rack.
#[derive(Clone, Copy)]
struct Links {
    blades: u8,
    memories: u8,
}

impl Links {
    fn count(self) -> u8 {
        2 * (self.blades + self.memories)
    }

    fn up(self, blade: u8) -> Link {
        Link(2 * blade)
    }

    fn down(self, blade: u8) -> Link {
        Link(2 * blade + 1)
    }

    fn to(self, memory: u8) -> Link {
        Link(2 * (self.blades + memory))
    }

    fn from(self, memory: u8) -> Link {
        Link(2 * (self.blades + memory) + 1)
    }

    fn way(self, link: Link) -> Way {
        let end = link.0 / 2;
        match (end < self.blades, link.0 % 2 == 0) {
            (true, true) => Way::Up(end),
            (true, false) => Way::Down(end),
            (false, true) => Way::To(end - self.blades),
            (false, false) => Way::From,
        }
    }

    fn link_named(self, name: &[u8]) -> Option<Link> {
        let (&letter, digits) = name.split_first()?;
        let end = match digits {
            [digit @ b'0'..=b'7'] => digit - b'0',
            _ => return None,
        };
        match letter {
            b'u' if end < self.blades => Some(self.up(end)),
            b'd' if end < self.blades => Some(self.down(end)),
            b't' if end < self.memories => Some(self.to(end)),
            b'f' if end < self.memories => Some(self.from(end)),
            _ => None,
        }
    }

    fn wire_named(self, name: &[u8]) -> Option<Wire> {
        match name.strip_suffix(b"a") {
            Some(link) => self.link_named(link).map(Link::acknowledgements),
            None => self.link_named(name).map(Link::messages),
        }
    }

    fn name(self, link: Link) -> String {
        let end = link.0 / 2;
        match self.way(link) {
            Way::Up(_) => format!("u{end}"),
            Way::Down(_) => format!("d{end}"),
            Way::To(_) => format!("t{}", end - self.blades),
            Way::From => format!("f{}", end - self.blades),
        }
    }

    fn wire_name(self, wire: Wire) -> String {
        let name = self.name(wire.link());
        if wire.carries_messages() {
            name
        } else {
            name + "a"
        }
    }
}

/// The events of a schedule.
fn read_schedule(text: &[u8], plan: &Plan) -> Result<Vec<Event>, Failure> {
    let mut reader = Reader { text, at: 0, plan };
    let mut events = Vec::with_capacity(text.len() / 8);
    let mut left = MOST_EVENTS;
    let mut line = 0;
    while reader.at < text.len() {
        line += 1;
        let event = match reader.line() {
            Ok(None) => continue,
            Ok(Some(event)) => event,
            Err(what) => return refused(format!("refused schedule {what} {line}")),
        };
        let many = match event {
            Event::Run { rounds } => u64::from(rounds) * 4 * plan.threads.len() as u64,
            _ => 1,
        };
        if many > left {
            return refused(format!("refused schedule events {line}"));
        }
        left -= many;
        events.push(event);
    }
    Ok(events)
}

/// Reads a schedule from its front on.
struct Reader<'a> {
    text: &'a [u8],
    at: usize,
    plan: &'a Plan,
}

fn is_blank(byte: u8) -> bool {
    matches!(byte, b' ' | b'\t')
}

fn is_graphic(byte: u8) -> bool {
    byte.is_ascii_graphic()
}

impl<'a> Reader<'a> {
    fn skip(&mut self, is: impl Fn(u8) -> bool) {
        let mut at = self.at;
        while at < self.text.len() && is(self.text[at]) {
            at += 1;
        }
        self.at = at;
    }

    /// The next word of the line, empty where there is none.
    fn word(&mut self) -> &'a [u8] {
        self.skip(is_blank);
        let first = self.at;
        self.skip(is_graphic);
        &self.text[first..self.at]
    }

    /// The event of the next line, None where it says nothing; or what is wrong there.
    fn line(&mut self) -> Result<Option<Event>, &'static str> {
        let event = match self.word() {
            [] => None,
            [b'#', ..] => {
                self.skip(|byte| is_blank(byte) || is_graphic(byte));
                None
            }
            word => Some(self.event(word)?),
        };
        self.end_line()?;
        Ok(event)
    }

    fn event(&mut self, word: &[u8]) -> Result<Event, &'static str> {
        Ok(match word {
            b"step" => Event::Step { hart: self.hart()? },
            b"drain" => Event::Drain { hart: self.hart()? },
            b"settle" => Event::Settle,
            b"deliver" => Event::Deliver {
                wire: self.wire()?,
                frame: self.number(u32::MAX)?,
            },
            b"lose" => Event::Lose {
                wire: self.wire()?,
                frame: self.number(u32::MAX)?,
            },
            b"repeat" => Event::Repeat {
                wire: self.wire()?,
                frame: self.number(u32::MAX)?,
            },
            b"evict" => Event::Evict {
                blade: self.blade()?,
                page: self.page()?,
            },
            b"resend" => Event::Resend { link: self.link()? },
            b"epoch" => Event::Epoch,
            b"run" => Event::Run {
                rounds: self.number(1_000_000)?,
            },
            b"map" | b"unmap" | b"protect" | b"migrate" => return Err("early"),
            _ => return Err("word"),
        })
    }

    /// Goes past the end of the line, of which nothing but blanks is left.
    fn end_line(&mut self) -> Result<(), &'static str> {
        self.skip(is_blank);
        self.at += match self.text[self.at..] {
            [] => 0,
            [b'\n', ..] => 1,
            [b'\r', b'\n', ..] => 2,
            [byte, ..] if is_graphic(byte) => return Err("count"),
            _ => return Err("text"),
        };
        Ok(())
    }

    fn argument(&mut self) -> Result<&'a [u8], &'static str> {
        match self.word() {
            [] => Err("count"),
            word => Ok(word),
        }
    }

    fn number(&mut self, limit: u32) -> Result<u32, &'static str> {
        let value = number(self.argument()?, limit.into());
        value.map(|value| value as u32).ok_or("range")
    }

    fn hart(&mut self) -> Result<u8, &'static str> {
        self.number(self.plan.threads.len() as u32 - 1)
            .map(|hart| hart as u8)
    }

    fn blade(&mut self) -> Result<u8, &'static str> {
        self.number(u32::from(self.plan.links.blades) - 1)
            .map(|blade| blade as u8)
    }

    fn page(&mut self) -> Result<Page, &'static str> {
        Ok(Page::new(
            self.number(15)?,
            self.number(PAGES_OF_A_DOMAIN - 1)?,
        ))
    }

    fn wire(&mut self) -> Result<Wire, &'static str> {
        self.plan.links.wire_named(self.argument()?).ok_or("wire")
    }

    fn link(&mut self) -> Result<Link, &'static str> {
        self.plan.links.link_named(self.argument()?).ok_or("wire")
    }
}

/// The numbers that schedules are made of.
struct Generator {
    state: u32,
}

impl Generator {
    /// A number below `end`.
    fn next(&mut self, end: u32) -> u32 {
        self.state = self
            .state
            .wrapping_mul(1_664_525)
            .wrapping_add(1_013_904_223);
        (self.state >> 16) % end
    }

    fn event(&mut self, threads: u32, wires: u32) -> Event {
        match self.next(16) {
            0..8 => Event::Step {
                hart: self.next(threads) as u8,
            },
            8..11 => Event::Drain {
                hart: self.next(threads) as u8,
            },
            11..13 => Event::Deliver {
                wire: Wire(self.next(wires) as u8),
                frame: self.next(4),
            },
            13 => Event::Lose {
                wire: Wire(self.next(wires) as u8),
                frame: self.next(4),
            },
            14 => Event::Repeat {
                wire: Wire(self.next(wires) as u8),
                frame: self.next(4),
            },
            _ if self.next(4) == 0 => Event::Epoch,
            _ => Event::Settle,
        }
    }
}

/// So many events by a seed, and a `settle` behind them.
fn generated(plan: &Plan, count: u32, seed: u32) -> Vec<Event> {
    let mut generator = Generator { state: seed };
    let (threads, wires) = (plan.threads.len() as u32, 2 * u32::from(plan.links.count()));
    let mut events: Vec<Event> = (0..count)
        .map(|_| generator.event(threads, wires))
        .collect();
    events.push(Event::Settle);
    events
}

/// A schedule of these events, which are those that are generated.
fn text_of(events: &[Event], links: Links) -> Vec<u8> {
    let names: Vec<String> = (0..2 * links.count())
        .map(|wire| links.wire_name(Wire(wire)))
        .collect();
    let name = |wire: Wire| Word(&names[usize::from(wire.0)]);
    let mut text = Vec::with_capacity(12 * events.len());
    for event in events {
        let text = &mut text;
        match *event {
            Event::Step { hart } => push_line(text, &[Word("step"), Number(hart.into())]),
            Event::Drain { hart } => push_line(text, &[Word("drain"), Number(hart.into())]),
            Event::Deliver { wire, frame } => {
                push_line(text, &[Word("deliver"), name(wire), Number(frame)])
            }
            Event::Lose { wire, frame } => {
                push_line(text, &[Word("lose"), name(wire), Number(frame)])
            }
            Event::Repeat { wire, frame } => {
                push_line(text, &[Word("repeat"), name(wire), Number(frame)])
            }
            Event::Epoch => push_line(text, &[Word("epoch")]),
            Event::Settle => push_line(text, &[Word("settle")]),
            Event::Evict { .. } | Event::Resend { .. } | Event::Run { .. } => {
                unreachable!("is not generated")
            }
        }
    }
    text
}

// -------------------------------------------------------------------------------------------------
// The log
// -------------------------------------------------------------------------------------------------

/// What was noted of a run: how many notes of each kind, and their text where it is asked for.
#[derive(Default)]
struct Log {
    events: u32,
    labels: u32,
    takes: u32,
    gives: u32,
    downs: u32,
    /// The most entries that the directory had at once.
    peak: usize,
    journal: Option<Vec<u8>>,
}

impl Log {
    fn counting() -> Log {
        Log::default()
    }

    fn writing() -> Log {
        Log {
            journal: Some(b"mind journal 1\n".to_vec()),
            ..Log::default()
        }
    }

    fn event(&mut self) {
        if let Some(text) = &mut self.journal {
            push_line(text, &[Word("e"), Number(self.events)]);
        }
        self.events += 1;
    }

    fn exec(&mut self, hart: u8) {
        if let Some(text) = &mut self.journal {
            push_line(text, &[Word("x"), Number(hart.into())]);
        }
        self.labels += 1;
    }

    fn drain(&mut self, hart: u8) {
        if let Some(text) = &mut self.journal {
            push_line(text, &[Word("d"), Number(hart.into())]);
        }
        self.labels += 1;
    }

    fn take(&mut self, blade: u8, page: Page, writable: bool) {
        if let Some(text) = &mut self.journal {
            let [blade, domain, number] = Part::of_page(blade, page);
            let way = Word(if writable { "w" } else { "r" });
            push_line(text, &[Word("t"), blade, domain, number, way]);
        }
        self.takes += 1;
    }

    fn give(&mut self, blade: u8, page: Page) {
        if let Some(text) = &mut self.journal {
            let [blade, domain, number] = Part::of_page(blade, page);
            push_line(text, &[Word("g"), blade, domain, number]);
        }
        self.gives += 1;
    }

    fn down(&mut self, blade: u8, page: Page) {
        if let Some(text) = &mut self.journal {
            let [blade, domain, number] = Part::of_page(blade, page);
            push_line(text, &[Word("l"), blade, domain, number]);
        }
        self.downs += 1;
    }

    fn region(&mut self, base: Page, log: u32, state: State) {
        let Some(text) = &mut self.journal else {
            return;
        };
        let [domain, number, log] = Part::of_region(base, log);
        let (state, named) = match state {
            State::Invalid => return push_line(text, &[Word("r"), domain, number, log, Word("i")]),
            State::Shared { sharers } => ("s", sharers),
            State::Modified { owner } => ("m", owner),
        };
        push_line(
            text,
            &[
                Word("r"),
                domain,
                number,
                log,
                Word(state),
                Number(named.into()),
            ],
        );
    }

    fn gone(&mut self, base: Page, log: u32) {
        if let Some(text) = &mut self.journal {
            let [domain, number, log] = Part::of_region(base, log);
            push_line(text, &[Word("o"), domain, number, log]);
        }
    }

    fn entries(&mut self, entries: usize) {
        self.peak = self.peak.max(entries);
    }
}

/// A part of a line, of which the parts stand one space apart.
#[derive(Clone, Copy)]
enum Part<'a> {
    Word(&'a str),
    Number(u32),
}

use Part::{Number, Word};

impl Part<'_> {
    fn of_page(blade: u8, page: Page) -> [Self; 3] {
        [
            Number(blade.into()),
            Number(page.domain()),
            Number(page.number()),
        ]
    }

    fn of_region(base: Page, log: u32) -> [Self; 3] {
        [Number(base.domain()), Number(base.number()), Number(log)]
    }
}

fn push_line(text: &mut Vec<u8>, parts: &[Part]) {
    for (place, part) in parts.iter().enumerate() {
        if place > 0 {
            text.push(b' ');
        }
        match *part {
            Word(word) => text.extend_from_slice(word.as_bytes()),
            Number(number) => push_number(text, number),
        }
    }
    text.push(b'\n');
}

fn push_number(text: &mut Vec<u8>, number: u32) {
    let mut digits = [0; 10];
    let mut first = digits.len();
    let mut left = number;
    loop {
        first -= 1;
        digits[first] = b'0' + (left % 10) as u8;
        left /= 10;
        if left == 0 {
            break;
        }
    }
    text.extend_from_slice(&digits[first..]);
}

// -------------------------------------------------------------------------------------------------
// Instructions
// -------------------------------------------------------------------------------------------------

#[derive(Clone, Copy)]
enum Condition {
    Equal,
    NotEqual,
    Less,
    NotLess,
    Below,
    NotBelow,
}

#[derive(Clone, Copy)]
enum Operation {
    Add,
    Subtract,
    ShiftLeft,
    SetLess,
    SetBelow,
    Xor,
    ShiftRight,
    ShiftRightSigned,
    Or,
    And,
}

#[derive(Clone, Copy)]
enum LoadKind {
    Byte,
    Half,
    Word,
    ByteUnsigned,
    HalfUnsigned,
}

#[derive(Clone, Copy)]
enum StoreSize {
    Byte,
    Half,
    Word,
}

#[derive(Clone, Copy)]
enum AmoKind {
    Swap,
    Add,
    Xor,
    And,
    Or,
    Min,
    Max,
    MinUnsigned,
    MaxUnsigned,
}

#[derive(Clone, Copy)]
enum Instruction {
    LoadUpper {
        rd: u8,
        value: u32,
    },
    AddUpperToPc {
        rd: u8,
        value: u32,
    },
    Jump {
        rd: u8,
        offset: u32,
    },
    JumpRegister {
        rd: u8,
        rs1: u8,
        offset: u32,
    },
    Branch {
        condition: Condition,
        rs1: u8,
        rs2: u8,
        offset: u32,
    },
    Load {
        kind: LoadKind,
        rd: u8,
        rs1: u8,
        offset: u32,
    },
    Store {
        size: StoreSize,
        rs1: u8,
        rs2: u8,
        offset: u32,
    },
    Immediate {
        operation: Operation,
        rd: u8,
        rs1: u8,
        value: u32,
    },
    Register {
        operation: Operation,
        rd: u8,
        rs1: u8,
        rs2: u8,
    },
    Fence {
        orders: bool,
    },
    Call,
    Break,
    LoadReserved {
        rd: u8,
        rs1: u8,
    },
    StoreConditional {
        rd: u8,
        rs1: u8,
        rs2: u8,
    },
    Amo {
        kind: AmoKind,
        rd: u8,
        rs1: u8,
        rs2: u8,
    },
    Illegal {
        word: u32,
    },
}

impl Instruction {
    fn decode(word: u32) -> Instruction {
        Instruction::legal(word).unwrap_or(Instruction::Illegal { word })
    }

    fn legal(word: u32) -> Option<Instruction> {
        let register = |lowest: u32| (word >> lowest & 31) as u8;
        let (rd, rs1, rs2) = (register(7), register(15), register(20));
        let (funct3, funct7) = (word >> 12 & 7, word >> 25);
        let sign = (word as i32 >> 31) as u32;
        let offset = (word as i32 >> 20) as u32;
        Some(match word & 0x7f {
            0b0110111 => Instruction::LoadUpper {
                rd,
                value: word & 0xfffff000,
            },
            0b0010111 => Instruction::AddUpperToPc {
                rd,
                value: word & 0xfffff000,
            },
            0b1101111 => {
                let offset = sign << 20 | word & 0xff000 | word >> 9 & 0x800 | word >> 20 & 0x7fe;
                Instruction::Jump { rd, offset }
            }
            0b1100111 if funct3 == 0 => Instruction::JumpRegister { rd, rs1, offset },
            0b1100011 => {
                let condition = match funct3 {
                    0b000 => Condition::Equal,
                    0b001 => Condition::NotEqual,
                    0b100 => Condition::Less,
                    0b101 => Condition::NotLess,
                    0b110 => Condition::Below,
                    0b111 => Condition::NotBelow,
                    _ => return None,
                };
                let offset = sign << 12 | word << 4 & 0x800 | word >> 20 & 0x7e0 | word >> 7 & 0x1e;
                Instruction::Branch {
                    condition,
                    rs1,
                    rs2,
                    offset,
                }
            }
            0b0000011 => {
                let kind = match funct3 {
                    0b000 => LoadKind::Byte,
                    0b001 => LoadKind::Half,
                    0b010 => LoadKind::Word,
                    0b100 => LoadKind::ByteUnsigned,
                    0b101 => LoadKind::HalfUnsigned,
                    _ => return None,
                };
                Instruction::Load {
                    kind,
                    rd,
                    rs1,
                    offset,
                }
            }
            0b0100011 => {
                let size = match funct3 {
                    0b000 => StoreSize::Byte,
                    0b001 => StoreSize::Half,
                    0b010 => StoreSize::Word,
                    _ => return None,
                };
                Instruction::Store {
                    size,
                    rs1,
                    rs2,
                    offset: offset & !31 | u32::from(rd),
                }
            }
            0b0010011 => {
                let shift = u32::from(rs2);
                let (operation, value) = match (funct3, funct7) {
                    (0b000, _) => (Operation::Add, offset),
                    (0b010, _) => (Operation::SetLess, offset),
                    (0b011, _) => (Operation::SetBelow, offset),
                    (0b100, _) => (Operation::Xor, offset),
                    (0b110, _) => (Operation::Or, offset),
                    (0b111, _) => (Operation::And, offset),
                    (0b001, 0b0000000) => (Operation::ShiftLeft, shift),
                    (0b101, 0b0000000) => (Operation::ShiftRight, shift),
                    (0b101, 0b0100000) => (Operation::ShiftRightSigned, shift),
                    _ => return None,
                };
                Instruction::Immediate {
                    operation,
                    rd,
                    rs1,
                    value,
                }
            }
            0b0110011 => {
                let operation = match (funct3, funct7) {
                    (0b000, 0b0000000) => Operation::Add,
                    (0b000, 0b0100000) => Operation::Subtract,
                    (0b001, 0b0000000) => Operation::ShiftLeft,
                    (0b010, 0b0000000) => Operation::SetLess,
                    (0b011, 0b0000000) => Operation::SetBelow,
                    (0b100, 0b0000000) => Operation::Xor,
                    (0b101, 0b0000000) => Operation::ShiftRight,
                    (0b101, 0b0100000) => Operation::ShiftRightSigned,
                    (0b110, 0b0000000) => Operation::Or,
                    (0b111, 0b0000000) => Operation::And,
                    _ => return None,
                };
                Instruction::Register {
                    operation,
                    rd,
                    rs1,
                    rs2,
                }
            }
            0b0001111 if funct3 == 0 => {
                let (mode, before, behind) = (word >> 28, word >> 24 & 15, word >> 20 & 15);
                let total_store_order = (mode, before, behind) == (0b1000, 0b0011, 0b0011);
                Instruction::Fence {
                    orders: !total_store_order && before & 0b0001 != 0 && behind & 0b0010 != 0,
                }
            }
            0b1110011 if word == 0x00000073 => Instruction::Call,
            0b1110011 if word == 0x00100073 => Instruction::Break,
            0b0101111 if funct3 == 0b010 => {
                let amo = |kind| Instruction::Amo { kind, rd, rs1, rs2 };
                match funct7 >> 2 {
                    0b00010 if rs2 == 0 => Instruction::LoadReserved { rd, rs1 },
                    0b00011 => Instruction::StoreConditional { rd, rs1, rs2 },
                    0b00001 => amo(AmoKind::Swap),
                    0b00000 => amo(AmoKind::Add),
                    0b00100 => amo(AmoKind::Xor),
                    0b01100 => amo(AmoKind::And),
                    0b01000 => amo(AmoKind::Or),
                    0b10000 => amo(AmoKind::Min),
                    0b10100 => amo(AmoKind::Max),
                    0b11000 => amo(AmoKind::MinUnsigned),
                    0b11100 => amo(AmoKind::MaxUnsigned),
                    _ => return None,
                }
            }
            _ => return None,
        })
    }
}

impl Condition {
    fn holds(self, one: u32, other: u32) -> bool {
        match self {
            Condition::Equal => one == other,
            Condition::NotEqual => one != other,
            Condition::Less => (one as i32) < other as i32,
            Condition::NotLess => one as i32 >= other as i32,
            Condition::Below => one < other,
            Condition::NotBelow => one >= other,
        }
    }
}

impl Operation {
    fn of(self, one: u32, other: u32) -> u32 {
        match self {
            Operation::Add => one.wrapping_add(other),
            Operation::Subtract => one.wrapping_sub(other),
            Operation::ShiftLeft => one.wrapping_shl(other),
            Operation::SetLess => ((one as i32) < other as i32).into(),
            Operation::SetBelow => (one < other).into(),
            Operation::Xor => one ^ other,
            Operation::ShiftRight => one.wrapping_shr(other),
            Operation::ShiftRightSigned => (one as i32).wrapping_shr(other) as u32,
            Operation::Or => one | other,
            Operation::And => one & other,
        }
    }
}

impl AmoKind {
    fn of(self, old: u32, operand: u32) -> u32 {
        match self {
            AmoKind::Swap => operand,
            AmoKind::Add => old.wrapping_add(operand),
            AmoKind::Xor => old ^ operand,
            AmoKind::And => old & operand,
            AmoKind::Or => old | operand,
            AmoKind::Min => (old as i32).min(operand as i32) as u32,
            AmoKind::Max => (old as i32).max(operand as i32) as u32,
            AmoKind::MinUnsigned => old.min(operand),
            AmoKind::MaxUnsigned => old.max(operand),
        }
    }
}

impl LoadKind {
    /// What is loaded at an address, of the word that has it.
    fn of(self, word: u32, address: u32) -> u32 {
        let raw = word >> (8 * (address % 4));
        match self {
            LoadKind::Byte => raw as i8 as u32,
            LoadKind::Half => raw as i16 as u32,
            LoadKind::Word => raw,
            LoadKind::ByteUnsigned => raw as u8 as u32,
            LoadKind::HalfUnsigned => raw as u16 as u32,
        }
    }

    fn bytes(self) -> u32 {
        match self {
            LoadKind::Byte | LoadKind::ByteUnsigned => 1,
            LoadKind::Half | LoadKind::HalfUnsigned => 2,
            LoadKind::Word => 4,
        }
    }
}

impl StoreSize {
    fn bytes(self) -> u32 {
        match self {
            StoreSize::Byte => 1,
            StoreSize::Half => 2,
            StoreSize::Word => 4,
        }
    }

    fn mask(self) -> u32 {
        match self {
            StoreSize::Byte => 0xff,
            StoreSize::Half => 0xffff,
            StoreSize::Word => 0xffffffff,
        }
    }
}

/// An image with its words decoded.
struct Program {
    at: u32,
    instructions: Vec<Instruction>,
}

impl Program {
    fn read_all(plan: &Plan) -> Result<Vec<Program>, Failure> {
        plan.images
            .iter()
            .enumerate()
            .map(|(number, image)| Program::read(number, image))
            .collect()
    }

    fn read(number: usize, image: &ImagePlan) -> Result<Program, Failure> {
        let bytes = file(&image.name, IMAGE_BYTES, || {
            format!("refused image long {number}")
        })?;
        if bytes.is_empty() || bytes.len() % 4 != 0 {
            return refused(format!("refused image length {number}"));
        }
        if u64::from(image.at) + bytes.len() as u64 > 1 << 32 {
            return refused(format!("refused image end {number}"));
        }
        let words = bytes
            .chunks_exact(4)
            .map(|word| u32::from_le_bytes([word[0], word[1], word[2], word[3]]));
        Ok(Program {
            at: image.at,
            instructions: words.map(Instruction::decode).collect(),
        })
    }

    /// The instruction at a pc, which is a multiple of 4, None where that is not in the image.
    fn fetch(&self, pc: u32) -> Option<Instruction> {
        self.instructions
            .get((pc.wrapping_sub(self.at) / 4) as usize)
            .copied()
    }
}

// -------------------------------------------------------------------------------------------------
// Pages of memory and the frames that hold them
// -------------------------------------------------------------------------------------------------

/// The words of a page, and of each granule of 64 bytes the tag of the store that took effect there
/// last.
#[derive(Clone)]
struct PageImage {
    words: [u32; 1024],
    tags: [u64; 64],
}

/// A page at a compute blade. Its image is shared with the memory blade and other readers until
/// somebody writes.
struct Frame {
    home: Home,
    permission: Permission,
    writable: bool,
    dirty: bool,
    /// Which frame was used right after this one, and which right before.
    newer: u16,
    older: u16,
    used: u64,
    image: Rc<PageImage>,
}

impl Frame {
    fn new(home: Home, permission: Permission, writable: bool, image: Rc<PageImage>) -> Frame {
        Frame {
            home,
            permission,
            writable,
            dirty: false,
            newer: ABSENT,
            older: ABSENT,
            used: 0,
            image,
        }
    }

    fn word(&self, address: u32) -> u32 {
        self.image.words[(address / 4 % 1024) as usize]
    }

    fn tag(&self, address: u32) -> u64 {
        self.image.tags[(address / 64 % 64) as usize]
    }

    fn store(&mut self, store: Pending, tag: u64) {
        let image = Rc::make_mut(&mut self.image);
        let word = &mut image.words[(store.address / 4 % 1024) as usize];
        *word = store.over(*word);
        image.tags[(store.address / 64 % 64) as usize] = tag;
        self.dirty = true;
    }
}

/// The frames of a compute blade, in a list by last use.
struct Cache {
    room: usize,
    frames: Vec<Frame>,
    /// Of each home page the frame that holds it.
    places: Vec<u16>,
    newest: u16,
    oldest: u16,
    clock: u64,
}

impl Cache {
    fn new(room: usize, homes: usize) -> Cache {
        Cache {
            room,
            frames: Vec::new(),
            places: vec![ABSENT; homes],
            newest: ABSENT,
            oldest: ABSENT,
            clock: 0,
        }
    }

    fn find(&self, home: Home) -> Option<u16> {
        let place = self.places[home.index()];
        (place != ABSENT).then_some(place)
    }

    fn find_page(&self, page: Page, homes: &Homes) -> Option<u16> {
        self.find(homes.find(page)?)
    }

    fn frame(&self, place: u16) -> &Frame {
        &self.frames[usize::from(place)]
    }

    fn frame_mut(&mut self, place: u16) -> &mut Frame {
        &mut self.frames[usize::from(place)]
    }

    fn is_full(&self) -> bool {
        self.frames.len() == self.room
    }

    /// Makes a frame the most recently used.
    fn touch(&mut self, place: u16) {
        if self.newest != place {
            self.unlink(place);
            self.link(place);
        }
    }

    /// Puts a frame in as the most recently used. There is room, and none of its page is there.
    fn insert(&mut self, frame: Frame) {
        let place = self.frames.len() as u16;
        self.places[frame.home.index()] = place;
        self.frames.push(frame);
        self.link(place);
    }

    /// Takes a frame out; the last one takes its place.
    fn remove(&mut self, place: u16) -> Frame {
        self.unlink(place);
        let frame = self.frames.swap_remove(place.into());
        self.places[frame.home.index()] = ABSENT;
        if let Some(&Frame {
            home, newer, older, ..
        }) = self.frames.get(usize::from(place))
        {
            self.places[home.index()] = place;
            self.set_older(newer, place);
            self.set_newer(older, place);
        }
        frame
    }

    fn link(&mut self, place: u16) {
        self.clock += 1;
        let (used, older) = (self.clock, self.newest);
        let frame = self.frame_mut(place);
        (frame.newer, frame.older, frame.used) = (ABSENT, older, used);
        self.newest = place;
        self.set_newer(older, place);
    }

    fn unlink(&mut self, place: u16) {
        let &Frame { newer, older, .. } = self.frame(place);
        self.set_older(newer, older);
        self.set_newer(older, newer);
    }

    /// Says which frame was used right before this one, or which is the newest where there is no
    /// such frame.
    fn set_older(&mut self, place: u16, older: u16) {
        match self.frames.get_mut(usize::from(place)) {
            Some(frame) => frame.older = older,
            None => self.newest = older,
        }
    }

    /// Says which frame was used right after this one, or which is the oldest where there is no
    /// such frame.
    fn set_newer(&mut self, place: u16, newer: u16) {
        match self.frames.get_mut(usize::from(place)) {
            Some(frame) => frame.newer = newer,
            None => self.oldest = newer,
        }
    }

    /// The pages of a region that are held as told, least recently used first.
    fn held(&self, region: &Region, as_told: impl Fn(&Frame) -> bool) -> Vec<Home> {
        let places =
            self.places[usize::from(region.homes.start)..usize::from(region.homes.end)].iter();
        let frames = places
            .filter(|&&place| place != ABSENT)
            .map(|&place| self.frame(place));
        let mut held: Vec<(u64, Home)> = frames
            .filter(|frame| as_told(frame))
            .map(|frame| (frame.used, frame.home))
            .collect();
        held.sort_unstable();
        held.into_iter().map(|(_, home)| home).collect()
    }
}

// -------------------------------------------------------------------------------------------------
// Harts
// -------------------------------------------------------------------------------------------------

#[derive(Clone, Copy, PartialEq, Eq)]
enum Fault {
    Fetch,
    Illegal,
    Target,
    Align,
    Load,
    Store,
    Call,
    Break,
}

#[derive(Clone, Copy, PartialEq, Eq)]
enum End {
    Running,
    Exit { value: u32 },
    Fault { fault: Fault, value: u32 },
}

/// A store that has not taken effect: the word that it falls into, and which bits of it become
/// which.
#[derive(Clone, Copy)]
struct Pending {
    address: u32,
    mask: u32,
    bits: u32,
}

impl Pending {
    fn new(size: StoreSize, address: u32, value: u32) -> Pending {
        let shift = 8 * (address % 4);
        Pending {
            address: address & !3,
            mask: size.mask() << shift,
            bits: (value & size.mask()) << shift,
        }
    }

    fn over(self, word: u32) -> u32 {
        word & !self.mask | self.bits
    }
}

/// An access to memory that an instruction asks for.
#[derive(Clone, Copy)]
struct Access {
    address: u32,
    kind: AccessKind,
}

#[derive(Clone, Copy)]
enum AccessKind {
    Load { kind: LoadKind, rd: u8 },
    Store { size: StoreSize, value: u32 },
    LoadReserved { rd: u8 },
    StoreConditional { rd: u8, value: u32 },
    Amo { kind: AmoKind, rd: u8, operand: u32 },
}

impl Access {
    fn is_aligned(self) -> bool {
        let bytes = match self.kind {
            AccessKind::Load { kind, .. } => kind.bytes(),
            AccessKind::Store { size, .. } => size.bytes(),
            AccessKind::LoadReserved { .. }
            | AccessKind::StoreConditional { .. }
            | AccessKind::Amo { .. } => 4,
        };
        self.address % bytes == 0
    }

    fn writes(self) -> bool {
        !matches!(
            self.kind,
            AccessKind::Load { .. } | AccessKind::LoadReserved { .. }
        )
    }

    /// Whether it writes to the page itself, and not to the queue of stores.
    fn writes_at_once(self) -> bool {
        matches!(
            self.kind,
            AccessKind::StoreConditional { .. } | AccessKind::Amo { .. }
        )
    }

    /// The fault of a thread whose domain may not do this.
    fn denial(self) -> Fault {
        if self.writes() {
            Fault::Store
        } else {
            Fault::Load
        }
    }
}

/// What a thread is to do with its instruction.
enum Work {
    /// It was performed.
    Done,
    /// The oldest store goes first.
    Drain,
    Access(Access),
}

struct Reservation {
    granule: u32,
    tag: u64,
}

struct Hart {
    number: u8,
    blade: u8,
    domain: u8,
    program: u8,
    registers: [u32; 32],
    pc: u32,
    end: End,
    output: Vec<u8>,
    queue: VecDeque<Pending>,
    queue_room: usize,
    reservation: Option<Reservation>,
    /// How many of its stores took effect.
    stores: u64,
    /// The access whose page its step waits for.
    awaited: Option<Access>,
    drain_waits: bool,
}

impl Hart {
    fn new(number: u8, plan: &ThreadPlan, pc: u32) -> Hart {
        Hart {
            number,
            blade: plan.blade,
            domain: plan.domain,
            program: plan.image,
            registers: [0; 32],
            pc,
            end: End::Running,
            output: Vec::new(),
            queue: VecDeque::with_capacity(plan.queue),
            queue_room: plan.queue,
            reservation: None,
            stores: 0,
            awaited: None,
            drain_waits: false,
        }
    }

    fn register(&self, register: u8) -> u32 {
        self.registers[usize::from(register % 32)]
    }

    fn set_register(&mut self, register: u8, value: u32) {
        self.registers[usize::from(register % 32)] = value;
        self.registers[0] = 0;
    }

    fn fault(&mut self, fault: Fault, value: u32) {
        self.end = End::Fault { fault, value };
    }

    fn next(&mut self, rd: u8, value: u32) {
        self.set_register(rd, value);
        self.pc = self.pc.wrapping_add(4);
    }

    fn jump(&mut self, rd: u8, target: u32) {
        if target % 4 == 0 {
            self.set_register(rd, self.pc.wrapping_add(4));
            self.pc = target;
        } else {
            self.fault(Fault::Target, target);
        }
    }

    fn call(&mut self) {
        match self.register(17) {
            1 => {
                self.output.push(self.register(10) as u8);
                self.next(0, 0);
            }
            2 => {
                self.end = End::Exit {
                    value: self.register(10),
                }
            }
            3 => self.next(10, self.number.into()),
            other => self.fault(Fault::Call, other),
        }
    }

    /// Performs an instruction that needs no page, and says what is to be done for one that does.
    fn begin(&mut self, instruction: Instruction) -> Work {
        match instruction {
            Instruction::LoadUpper { rd, value } => self.next(rd, value),
            Instruction::AddUpperToPc { rd, value } => self.next(rd, self.pc.wrapping_add(value)),
            Instruction::Jump { rd, offset } => self.jump(rd, self.pc.wrapping_add(offset)),
            Instruction::JumpRegister { rd, rs1, offset } => {
                self.jump(rd, self.register(rs1).wrapping_add(offset) & !1)
            }
            Instruction::Branch {
                condition,
                rs1,
                rs2,
                offset,
            } => {
                if condition.holds(self.register(rs1), self.register(rs2)) {
                    self.jump(0, self.pc.wrapping_add(offset));
                } else {
                    self.next(0, 0);
                }
            }
            Instruction::Immediate {
                operation,
                rd,
                rs1,
                value,
            } => self.next(rd, operation.of(self.register(rs1), value)),
            Instruction::Register {
                operation,
                rd,
                rs1,
                rs2,
            } => {
                self.next(rd, operation.of(self.register(rs1), self.register(rs2)));
            }
            Instruction::Fence { orders: true } if !self.queue.is_empty() => return Work::Drain,
            Instruction::Fence { .. } => self.next(0, 0),
            Instruction::Call => self.call(),
            Instruction::Break => self.fault(Fault::Break, 0),
            Instruction::Illegal { word } => self.fault(Fault::Illegal, word),
            Instruction::Load {
                kind,
                rd,
                rs1,
                offset,
            } => {
                return self.access(
                    self.register(rs1).wrapping_add(offset),
                    AccessKind::Load { kind, rd },
                );
            }
            Instruction::Store {
                size,
                rs1,
                rs2,
                offset,
            } => {
                let value = self.register(rs2);
                return self.access(
                    self.register(rs1).wrapping_add(offset),
                    AccessKind::Store { size, value },
                );
            }
            Instruction::LoadReserved { rd, rs1 } => {
                return self.access(self.register(rs1), AccessKind::LoadReserved { rd });
            }
            Instruction::StoreConditional { rd, rs1, rs2 } => {
                let value = self.register(rs2);
                return self.access(
                    self.register(rs1),
                    AccessKind::StoreConditional { rd, value },
                );
            }
            Instruction::Amo { kind, rd, rs1, rs2 } => {
                let operand = self.register(rs2);
                return self.access(self.register(rs1), AccessKind::Amo { kind, rd, operand });
            }
        }
        Work::Done
    }

    /// Stores wait for room in the queue, and locked operations for its end, before their address
    /// is looked at.
    fn access(&mut self, address: u32, kind: AccessKind) -> Work {
        let drains = match kind {
            AccessKind::Load { .. } => false,
            AccessKind::Store { .. } => self.queue.len() == self.queue_room,
            AccessKind::LoadReserved { .. }
            | AccessKind::StoreConditional { .. }
            | AccessKind::Amo { .. } => !self.queue.is_empty(),
        };
        let access = Access { address, kind };
        if drains {
            Work::Drain
        } else if access.is_aligned() {
            Work::Access(access)
        } else {
            self.fault(Fault::Align, address);
            Work::Done
        }
    }

    /// Performs an access in the frame of its page, which allows it.
    fn perform(&mut self, access: Access, frame: &mut Frame) {
        let address = access.address;
        match access.kind {
            AccessKind::Load { kind, rd } => {
                let mut word = frame.word(address);
                for store in self
                    .queue
                    .iter()
                    .filter(|store| store.address == address & !3)
                {
                    word = store.over(word);
                }
                self.next(rd, kind.of(word, address));
            }
            AccessKind::Store { size, value } => {
                self.queue.push_back(Pending::new(size, address, value));
                self.next(0, 0);
            }
            AccessKind::LoadReserved { rd } => {
                self.reservation = Some(Reservation {
                    granule: address / 64,
                    tag: frame.tag(address),
                });
                self.next(rd, frame.word(address));
            }
            AccessKind::StoreConditional { rd, value } => {
                let reservation = self.reservation.take();
                let reserved = reservation
                    .is_some_and(|it| it.granule == address / 64 && it.tag == frame.tag(address));
                if reserved {
                    self.store(Pending::new(StoreSize::Word, address, value), frame);
                }
                self.next(rd, (!reserved).into());
            }
            AccessKind::Amo { kind, rd, operand } => {
                let old = frame.word(address);
                self.store(
                    Pending::new(StoreSize::Word, address, kind.of(old, operand)),
                    frame,
                );
                self.next(rd, old);
            }
        }
    }

    /// A store takes effect. Its tag is new, so that every reservation on the granule ends.
    fn store(&mut self, store: Pending, frame: &mut Frame) {
        self.stores += 1;
        frame.store(store, self.stores * 64 + u64::from(self.number));
    }
}

// -------------------------------------------------------------------------------------------------
// Messages and links
// -------------------------------------------------------------------------------------------------

enum Message {
    /// A blade asks for a page, and has it, or is told that it may not.
    Get {
        page: Page,
        write: bool,
    },
    Fill {
        home: Home,
        permission: Permission,
        writable: bool,
        image: Rc<PageImage>,
    },
    Deny {
        page: Page,
    },
    /// A page goes back.
    Back {
        home: Home,
        image: Rc<PageImage>,
    },
    /// A blade gives up the pages of a region, or the writing of them, and says how many others
    /// than the asked one these were.
    Invalidate {
        number: u32,
        region: RegionNumber,
        asked: Option<Home>,
    },
    Lower {
        number: u32,
        region: RegionNumber,
        asked: Home,
    },
    Acknowledge {
        number: u32,
        count: u32,
    },
    /// A memory blade is read for a compute blade, answers, and is written.
    Read {
        physical: u32,
        blade: u8,
        home: Home,
    },
    Image {
        blade: u8,
        home: Home,
        image: Rc<PageImage>,
    },
    Write {
        physical: u32,
        image: Rc<PageImage>,
    },
}

const WIRE_ROOM: usize = 64;

/// A frame: the number of its message, or the next expected number, and the mask of what came after it.
#[derive(Clone, Copy)]
struct WireFrame {
    number: u32,
    /// Bit j, from the lowest, says that message `number + 1 + j` has come. Of an acknowledgement alone.
    mask: u64,
}

/// One way between two nodes, by selective repeat: frames may be lost and repeated, and messages are
/// handed over in order. One that comes early waits until those before it came, and all are kept until
/// they are acknowledged; those that a mask names are not sent again.
struct Line {
    next: u32,
    /// The number of the first message that the sender keeps.
    first_kept: u32,
    /// Bit j says that message `first_kept + 1 + j` need not be sent again.
    marked: u64,
    /// The number of the message that the receiver expects.
    expected: u32,
    /// Bit j says that the receiver has message `expected + 1 + j`.
    ahead: u64,
    /// The messages that were sent and not yet handed over.
    pending: VecDeque<Message>,
    messages: VecDeque<WireFrame>,
    acknowledgements: VecDeque<WireFrame>,
}

impl Line {
    fn new() -> Line {
        Line {
            next: 0,
            first_kept: 0,
            marked: 0,
            expected: 0,
            ahead: 0,
            pending: VecDeque::new(),
            messages: VecDeque::with_capacity(WIRE_ROOM),
            acknowledgements: VecDeque::with_capacity(WIRE_ROOM),
        }
    }

    fn frames(&mut self, wire: Wire) -> &mut VecDeque<WireFrame> {
        if wire.carries_messages() {
            &mut self.messages
        } else {
            &mut self.acknowledgements
        }
    }

    /// A message frame has come: how many messages can be handed over now.
    fn receive(&mut self, number: u32) -> u32 {
        if number == self.expected {
            let count = 1 + self.ahead.trailing_ones();
            self.expected += count;
            self.ahead = self.ahead.checked_shr(count).unwrap_or(0);
            return count;
        }
        let distance = number.saturating_sub(self.expected);
        if (1..=64).contains(&distance) {
            self.ahead |= 1 << (distance - 1);
        }
        0
    }

    /// An acknowledgement has come: messages before its number are kept no longer, and those that its
    /// mask names are marked.
    fn acknowledge(&mut self, frame: WireFrame) {
        let first = self.first_kept.max(frame.number);
        let marked = self.marked.checked_shr(first - self.first_kept).unwrap_or(0);
        let named = frame.mask.checked_shr(first - frame.number).unwrap_or(0);
        self.first_kept = first;
        self.marked = marked | named;
    }

    fn is_marked(&self, number: u32) -> bool {
        let distance = number - self.first_kept;
        (1..=64).contains(&distance) && self.marked >> (distance - 1) & 1 == 1
    }
}

/// All links, and which wires have frames and which links keep messages, as bits in their order.
struct Net {
    lines: Vec<Line>,
    filled: u64,
    keeping: u32,
}

impl Net {
    fn new(links: Links) -> Net {
        Net {
            lines: (0..links.count()).map(|_| Line::new()).collect(),
            filled: 0,
            keeping: 0,
        }
    }

    fn line(&mut self, link: Link) -> &mut Line {
        &mut self.lines[usize::from(link.0)]
    }

    fn send(&mut self, link: Link, message: Message) {
        let line = self.line(link);
        let number = line.next;
        line.next += 1;
        line.pending.push_back(message);
        self.keeping |= 1 << link.0;
        self.put(link.messages(), WireFrame { number, mask: 0 });
    }

    /// Puts a frame at the end of a wire; where there is no room it is lost.
    fn put(&mut self, wire: Wire, frame: WireFrame) {
        let frames = self.line(wire.link()).frames(wire);
        if frames.len() < WIRE_ROOM {
            frames.push_back(frame);
            self.filled |= 1 << wire.0;
        }
    }

    /// Takes a frame out of a wire, by its place modulo the wire's length.
    fn lose(&mut self, wire: Wire, place: u32) -> Option<WireFrame> {
        let frames = self.line(wire.link()).frames(wire);
        let frame = match place {
            0 => frames.pop_front()?,
            _ => frames.remove((place as usize).checked_rem(frames.len())?)?,
        };
        if frames.is_empty() {
            self.filled &= !(1 << wire.0);
        }
        Some(frame)
    }

    fn repeat(&mut self, wire: Wire, place: u32) {
        let frames = self.line(wire.link()).frames(wire);
        if let Some(place) = (place as usize).checked_rem(frames.len()) {
            let frame = frames[place];
            self.put(wire, frame);
        }
    }

    fn resend(&mut self, link: Link) {
        let line = self.line(link);
        for number in line.first_kept..line.next {
            if line.messages.len() == WIRE_ROOM {
                break;
            }
            if !line.is_marked(number) {
                line.messages.push_back(WireFrame { number, mask: 0 });
            }
        }
        if !line.messages.is_empty() {
            self.filled |= 1 << link.messages().0;
        }
    }

    /// Delivers a frame, and says how many messages `take` hands over now.
    fn deliver(&mut self, wire: Wire, place: u32) -> u32 {
        let Some(frame) = self.lose(wire, place) else {
            return 0;
        };
        let link = wire.link();
        let line = self.line(link);
        if wire.carries_messages() {
            let count = line.receive(frame.number);
            let acknowledgement = WireFrame {
                number: line.expected,
                mask: line.ahead,
            };
            self.put(link.acknowledgements(), acknowledgement);
            return count;
        }
        line.acknowledge(frame);
        if line.first_kept == line.next {
            self.keeping &= !(1 << link.0);
        }
        0
    }

    /// The next message that a link hands over.
    fn take(&mut self, link: Link) -> Option<Message> {
        self.line(link).pending.pop_front()
    }

    /// The first wire that has frames.
    fn first_filled(&self) -> Option<Wire> {
        (self.filled != 0).then(|| Wire(self.filled.trailing_zeros() as u8))
    }

    /// The first link that keeps messages.
    fn first_keeping(&self) -> Option<Link> {
        (self.keeping != 0).then(|| Link(self.keeping.trailing_zeros() as u8))
    }
}

// -------------------------------------------------------------------------------------------------
// The switch
// -------------------------------------------------------------------------------------------------

#[derive(Clone, Copy, PartialEq, Eq)]
enum State {
    Invalid,
    /// Sharers are bits by the blades' numbers.
    Shared {
        sharers: u8,
    },
    Modified {
        owner: u8,
    },
}

impl State {
    /// The blades that may hold a page, as bits.
    fn holders(self) -> u8 {
        match self {
            State::Invalid => 0,
            State::Shared { sharers } => sharers,
            State::Modified { owner } => 1 << owner,
        }
    }

    /// The state in which a blade's request is granted, None where others are in its way.
    fn granting(self, blade: u8, write: bool) -> Option<State> {
        let others = self.holders() & !(1 << blade);
        match self {
            State::Modified { owner } if owner == blade => Some(self),
            State::Invalid | State::Shared { .. } if !write => Some(State::Shared {
                sharers: self.holders() | 1 << blade,
            }),
            State::Invalid | State::Shared { .. } if others == 0 => {
                Some(State::Modified { owner: blade })
            }
            _ => None,
        }
    }
}

/// The directory's entry for a region.
#[derive(Clone, Copy)]
struct Entry {
    state: State,
    busy: bool,
    /// How many requests for its pages are being fetched.
    fetching: u8,
    /// How many pages were given up without need since the last epoch.
    hits: u32,
}

impl Entry {
    fn is_still(self) -> bool {
        !self.busy && self.fetching == 0
    }
}

/// A change of a region's state that waits for the answers of blades.
struct Transition {
    number: u32,
    region: RegionNumber,
    waiting: u8,
    target: State,
    makes_room: bool,
}

#[derive(Clone, Copy)]
struct Request {
    blade: u8,
    page: Page,
    write: bool,
    fetching: bool,
}

/// What became of a request in a pass over all that wait.
enum Treated {
    Ended,
    Changed,
    Waits,
}

struct Switch<'a> {
    homes: &'a Homes,
    links: Links,
    slots: usize,
    region_log: u32,
    /// Entries by region, and in order which regions have one.
    entries: Vec<Option<Entry>>,
    present: Vec<RegionNumber>,
    /// How many entries are in the state I.
    invalid: usize,
    transitions: Vec<Transition>,
    last_number: u32,
    /// In order of arrival.
    requests: Vec<Request>,
}

impl<'a> Switch<'a> {
    fn new(plan: &'a Plan) -> Switch<'a> {
        Switch {
            homes: &plan.homes,
            links: plan.links,
            slots: plan.slots,
            region_log: plan.region,
            entries: vec![None; plan.homes.regions.len()],
            present: Vec::with_capacity(plan.slots.min(plan.homes.regions.len())),
            invalid: 0,
            transitions: Vec::new(),
            last_number: 0,
            requests: Vec::new(),
        }
    }

    fn receive_from_blade(&mut self, blade: u8, message: Message, net: &mut Net, log: &mut Log) {
        match message {
            Message::Get { page, write } => self.requests.push(Request {
                blade,
                page,
                write,
                fetching: false,
            }),
            Message::Back { home, image } => {
                let &HomePage {
                    memory, physical, ..
                } = self.homes.page(home);
                net.send(self.links.to(memory), Message::Write { physical, image });
            }
            Message::Acknowledge { number, count } => self.acknowledged(blade, number, count, log),
            _ => unreachable!("blades send no other messages"),
        }
        self.serve(net, log);
    }

    fn receive_from_memory(&mut self, message: Message, net: &mut Net, log: &mut Log) {
        let Message::Image { blade, home, image } = message else {
            unreachable!("memory blades send no other messages")
        };
        let &HomePage {
            page,
            region,
            permission,
            ..
        } = self.homes.page(home);
        let asked =
            |request: &Request| request.fetching && request.blade == blade && request.page == page;
        let place = self
            .requests
            .iter()
            .position(asked)
            .expect("an image is fetched for a request");
        let writable = self.requests.remove(place).write;
        if let Some(entry) = &mut self.entries[region.index()] {
            entry.fetching -= 1;
        }
        net.send(
            self.links.down(blade),
            Message::Fill {
                home,
                permission,
                writable,
                image,
            },
        );
        self.serve(net, log);
    }

    fn acknowledged(&mut self, blade: u8, number: u32, count: u32, log: &mut Log) {
        let mut transitions = self.transitions.iter();
        let place = transitions
            .position(|transition| transition.number == number)
            .expect("a transition waits");
        let transition = &mut self.transitions[place];
        transition.waiting &= !(1 << blade);
        let &mut Transition {
            region,
            waiting,
            target,
            ..
        } = transition;
        if let Some(entry) = &mut self.entries[region.index()] {
            entry.hits = entry.hits.saturating_add(count);
            if waiting == 0 {
                entry.busy = false;
                self.transitions.remove(place);
                self.set_state(region, target, log);
            }
        }
    }

    fn set_state(&mut self, region: RegionNumber, state: State, log: &mut Log) {
        let Some(entry) = &mut self.entries[region.index()] else {
            return;
        };
        if entry.state != state {
            self.invalid -= usize::from(entry.state == State::Invalid);
            self.invalid += usize::from(state == State::Invalid);
            entry.state = state;
            log.region(
                self.homes.regions[region.index()].base,
                self.region_log,
                state,
            );
        }
    }

    /// Goes over the waiting requests until nothing changes.
    fn serve(&mut self, net: &mut Net, log: &mut Log) {
        while self.pass(net, log) {}
    }

    fn pass(&mut self, net: &mut Net, log: &mut Log) -> bool {
        let mut changed = false;
        let mut room_waits = false;
        let mut place = 0;
        while let Some(&request) = self.requests.get(place) {
            let treated = if request.fetching {
                Treated::Waits
            } else {
                self.treat(place, request, &mut room_waits, net, log)
            };
            match treated {
                Treated::Ended => {
                    self.requests.remove(place);
                    changed = true;
                    continue;
                }
                Treated::Changed => changed = true,
                Treated::Waits => {}
            }
            place += 1;
        }
        changed
    }

    fn treat(
        &mut self,
        place: usize,
        request: Request,
        room_waits: &mut bool,
        net: &mut Net,
        log: &mut Log,
    ) -> Treated {
        let Request {
            blade, page, write, ..
        } = request;
        let home = self.homes.find(page);
        let Some(home) = home.filter(|&home| self.homes.page(home).permission.allows(write)) else {
            net.send(self.links.down(blade), Message::Deny { page });
            return Treated::Ended;
        };
        let &HomePage {
            memory,
            physical,
            region,
            ..
        } = self.homes.page(home);
        if self.entries[region.index()].is_none() && !*room_waits && !self.enters(region, log) {
            *room_waits = true;
            return if self.makes_room(net) {
                Treated::Changed
            } else {
                Treated::Waits
            };
        }
        let Some(entry) = self.entries[region.index()]
            .as_mut()
            .filter(|entry| !entry.busy)
        else {
            return Treated::Waits;
        };
        if let Some(state) = entry.state.granting(blade, write) {
            entry.fetching += 1;
            self.requests[place].fetching = true;
            self.set_state(region, state, log);
            net.send(
                self.links.to(memory),
                Message::Read {
                    physical,
                    blade,
                    home,
                },
            );
        } else if entry.fetching == 0 {
            let state = entry.state;
            self.clear_the_way(region, state, blade, write, home, net);
        } else {
            return Treated::Waits;
        }
        Treated::Changed
    }

    /// Begins the transition that a blade's request for a page wants.
    fn clear_the_way(
        &mut self,
        region: RegionNumber,
        state: State,
        blade: u8,
        write: bool,
        asked: Home,
        net: &mut Net,
    ) {
        match state {
            State::Modified { owner } if !write => {
                let target = State::Shared {
                    sharers: 1 << owner,
                };
                let number = self.begin(region, 1 << owner, target, false);
                net.send(
                    self.links.down(owner),
                    Message::Lower {
                        number,
                        region,
                        asked,
                    },
                );
            }
            _ => {
                let target = match state {
                    State::Shared { sharers } if sharers & 1 << blade != 0 => State::Shared {
                        sharers: 1 << blade,
                    },
                    _ => State::Invalid,
                };
                self.invalidate(
                    region,
                    state.holders() & !(1 << blade),
                    target,
                    Some(asked),
                    net,
                );
            }
        }
    }

    /// Enters a region where there is room, or where another can be dropped for it.
    fn enters(&mut self, region: RegionNumber, log: &mut Log) -> bool {
        let has_room = self.present.len() < self.slots || self.drops_an_entry(log);
        if has_room {
            self.insert(region, log);
        }
        has_room
    }

    fn insert(&mut self, region: RegionNumber, log: &mut Log) {
        let Err(place) = self.present.binary_search(&region) else {
            return;
        };
        self.present.insert(place, region);
        self.entries[region.index()] = Some(Entry {
            state: State::Invalid,
            busy: false,
            fetching: 0,
            hits: 0,
        });
        self.invalid += 1;
        log.entries(self.present.len());
        log.region(
            self.homes.regions[region.index()].base,
            self.region_log,
            State::Invalid,
        );
    }

    /// The first region whose entry is as told.
    fn first(&self, as_told: impl Fn(Entry) -> bool) -> Option<usize> {
        self.present
            .iter()
            .position(|region| self.entries[region.index()].is_some_and(&as_told))
    }

    /// Drops the first entry that names nobody, if there is one.
    fn drops_an_entry(&mut self, log: &mut Log) -> bool {
        if self.invalid == 0 {
            return false;
        }
        let Some(place) = self.first(|entry| entry.state == State::Invalid) else {
            return false;
        };
        let region = self.present.remove(place);
        self.entries[region.index()] = None;
        self.invalid -= 1;
        log.gone(self.homes.regions[region.index()].base, self.region_log);
        true
    }

    /// Tells the holders of the first entry that is still to give up its pages, if no room is being
    /// made.
    fn makes_room(&mut self, net: &mut Net) -> bool {
        if self
            .transitions
            .iter()
            .any(|transition| transition.makes_room)
        {
            return false;
        }
        let Some(place) = self.first(Entry::is_still) else {
            return false;
        };
        let region = self.present[place];
        let holders = self.entries[region.index()].map_or(0, |entry| entry.state.holders());
        self.invalidate(region, holders, State::Invalid, None, net);
        true
    }

    /// Begins a transition in which blades give up all pages of a region; no page is asked for
    /// where it makes room.
    fn invalidate(
        &mut self,
        region: RegionNumber,
        blades: u8,
        target: State,
        asked: Option<Home>,
        net: &mut Net,
    ) {
        let number = self.begin(region, blades, target, asked.is_none());
        for blade in (0..8).filter(|blade| blades & 1 << blade != 0) {
            net.send(
                self.links.down(blade),
                Message::Invalidate {
                    number,
                    region,
                    asked,
                },
            );
        }
    }

    fn begin(&mut self, region: RegionNumber, waiting: u8, target: State, makes_room: bool) -> u32 {
        self.last_number += 1;
        self.transitions.push(Transition {
            number: self.last_number,
            region,
            waiting,
            target,
            makes_room,
        });
        if let Some(entry) = &mut self.entries[region.index()] {
            entry.busy = true;
        }
        self.last_number
    }
}

// -------------------------------------------------------------------------------------------------
// The rack
// -------------------------------------------------------------------------------------------------

/// What of a thread waits for a page.
#[derive(Clone, Copy)]
enum Waiter {
    Step,
    Drain,
}

/// A page that a blade asked for.
struct Asked {
    page: Page,
    hart: u8,
    waiter: Waiter,
}

struct Blade {
    cache: Cache,
    asked: Vec<Asked>,
}

impl Blade {
    fn has_asked(&self, page: Page) -> bool {
        self.asked.iter().any(|asked| asked.page == page)
    }

    /// Ends the request for a page.
    fn answered(&mut self, page: Page) -> Asked {
        let place = self
            .asked
            .iter()
            .position(|asked| asked.page == page)
            .expect("an answer comes to a request");
        self.asked.swap_remove(place)
    }
}

struct Rack<'a> {
    plan: &'a Plan,
    programs: &'a [Program],
    harts: Vec<Hart>,
    blades: Vec<Blade>,
    switch: Switch<'a>,
    memories: Vec<Vec<Rc<PageImage>>>,
    net: Net,
    log: Log,
}

impl<'a> Rack<'a> {
    fn start(plan: &'a Plan, programs: &'a [Program], log: Log) -> Rack<'a> {
        let zeros = Rc::new(PageImage {
            words: [0; 1024],
            tags: [0; 64],
        });
        let harts = (0..).zip(&plan.threads);
        let blade = |&room: &usize| Blade {
            cache: Cache::new(room, plan.homes.pages.len()),
            asked: Vec::new(),
        };
        Rack {
            plan,
            programs,
            harts: harts
                .map(|(number, thread)| {
                    Hart::new(number, thread, plan.images[usize::from(thread.image)].at)
                })
                .collect(),
            blades: plan.frames.iter().map(blade).collect(),
            switch: Switch::new(plan),
            memories: plan
                .memories
                .iter()
                .map(|&pages| vec![Rc::clone(&zeros); pages as usize])
                .collect(),
            net: Net::new(plan.links),
            log,
        }
    }

    fn run(&mut self, events: &[Event]) {
        for event in events {
            if let Event::Run { rounds } = *event {
                (0..rounds).for_each(|_| self.round());
            } else {
                self.event(*event);
            }
        }
    }

    fn round(&mut self) {
        for hart in 0..self.harts.len() as u8 {
            for event in [
                Event::Step { hart },
                Event::Settle,
                Event::Drain { hart },
                Event::Settle,
            ] {
                self.event(event);
            }
        }
    }

    fn event(&mut self, event: Event) {
        self.log.event();
        match event {
            Event::Step { hart } => self.step(hart),
            Event::Drain { hart } => self.drain(hart),
            Event::Evict { blade, page } => self.evict(blade, page),
            Event::Deliver { wire, frame } => self.deliver(wire, frame),
            Event::Lose { wire, frame } => {
                self.net.lose(wire, frame);
            }
            Event::Repeat { wire, frame } => self.net.repeat(wire, frame),
            Event::Resend { link } => self.net.resend(link),
            Event::Epoch => {}
            Event::Settle => self.settle(),
            Event::Run { .. } => unreachable!("rounds are made of events"),
        }
    }

    fn settle(&mut self) {
        loop {
            if let Some(wire) = self.net.first_filled() {
                self.deliver(wire, 0);
            } else if let Some(link) = self.net.first_keeping() {
                self.net.resend(link);
            } else {
                return;
            }
        }
    }

    fn deliver(&mut self, wire: Wire, place: u32) {
        let link = wire.link();
        for _ in 0..self.net.deliver(wire, place) {
            if let Some(message) = self.net.take(link) {
                self.hand_over(link, message);
            }
        }
    }

    fn hand_over(&mut self, link: Link, message: Message) {
        match self.plan.links.way(link) {
            Way::Up(blade) => {
                self.switch
                    .receive_from_blade(blade, message, &mut self.net, &mut self.log)
            }
            Way::From => self
                .switch
                .receive_from_memory(message, &mut self.net, &mut self.log),
            Way::To(memory) => self.memory_receives(memory, message),
            Way::Down(blade) => self.blade_receives(blade, message),
        }
    }

    fn memory_receives(&mut self, memory: u8, message: Message) {
        let pages = &mut self.memories[usize::from(memory)];
        match message {
            Message::Read {
                physical,
                blade,
                home,
            } => {
                let image = Rc::clone(&pages[physical as usize]);
                self.net.send(
                    self.plan.links.from(memory),
                    Message::Image { blade, home, image },
                );
            }
            Message::Write { physical, image } => pages[physical as usize] = image,
            _ => unreachable!("memory blades are sent no other messages"),
        }
    }

    fn step(&mut self, number: u8) {
        let hart = &mut self.harts[usize::from(number)];
        if hart.end != End::Running || hart.awaited.is_some() {
            return;
        }
        let work = match self.programs[usize::from(hart.program)].fetch(hart.pc) {
            Some(instruction) => hart.begin(instruction),
            None => {
                hart.fault(Fault::Fetch, hart.pc);
                Work::Done
            }
        };
        match work {
            Work::Done => self.log.exec(number),
            Work::Drain => self.drain(number),
            Work::Access(access) => self.access(number, access),
        }
    }

    /// Performs an access in the frame of its page, or faults; where the blade does not hold the
    /// page for it, asks for it.
    fn access(&mut self, number: u8, access: Access) {
        let hart = &mut self.harts[usize::from(number)];
        let blade = &mut self.blades[usize::from(hart.blade)];
        let page = Page::of(hart.domain, access.address);
        if let Some(place) = blade.cache.find_page(page, &self.plan.homes) {
            let frame = blade.cache.frame_mut(place);
            if access.writes() && frame.permission != Permission::ReadWrite {
                hart.fault(Fault::Store, access.address);
                return self.log.exec(number);
            }
            if frame.writable || !access.writes_at_once() {
                hart.perform(access, frame);
                blade.cache.touch(place);
                return self.log.exec(number);
            }
        }
        if self.ask(number, Waiter::Step, page, access.writes()) {
            self.harts[usize::from(number)].awaited = Some(access);
        }
    }

    fn drain(&mut self, number: u8) {
        let hart = &mut self.harts[usize::from(number)];
        let Some(&store) = hart.queue.front().filter(|_| !hart.drain_waits) else {
            return;
        };
        let blade = &mut self.blades[usize::from(hart.blade)];
        let page = Page::of(hart.domain, store.address);
        if let Some(place) = blade.cache.find_page(page, &self.plan.homes) {
            let frame = blade.cache.frame_mut(place);
            if frame.writable {
                hart.queue.pop_front();
                hart.store(store, frame);
                blade.cache.touch(place);
                return self.log.drain(number);
            }
        }
        let asked = self.ask(number, Waiter::Drain, page, true);
        self.harts[usize::from(number)].drain_waits = asked;
    }

    /// The blade of a hart asks for a page, unless that was done; whether it was not.
    fn ask(&mut self, hart: u8, waiter: Waiter, page: Page, write: bool) -> bool {
        let number = self.harts[usize::from(hart)].blade;
        let blade = &mut self.blades[usize::from(number)];
        if blade.has_asked(page) {
            return false;
        }
        blade.asked.push(Asked { page, hart, waiter });
        self.net
            .send(self.plan.links.up(number), Message::Get { page, write });
        true
    }

    fn evict(&mut self, blade: u8, page: Page) {
        let cache = &self.blades[usize::from(blade)].cache;
        if let Some(place) = cache.find_page(page, &self.plan.homes) {
            self.give_up(blade, place);
        }
    }

    /// A blade gives up a page; what was written goes back.
    fn give_up(&mut self, blade: u8, place: u16) {
        let Frame {
            home, dirty, image, ..
        } = self.blades[usize::from(blade)].cache.remove(place);
        self.log.give(blade, self.plan.homes.page(home).page);
        if dirty {
            self.net
                .send(self.plan.links.up(blade), Message::Back { home, image });
        }
    }

    fn blade_receives(&mut self, number: u8, message: Message) {
        match message {
            Message::Fill {
                home,
                permission,
                writable,
                image,
            } => self.fill(number, Frame::new(home, permission, writable, image)),
            Message::Deny { page } => self.deny(number, page),
            Message::Invalidate {
                number: transition,
                region,
                asked,
            } => self.invalidate(number, transition, region, asked),
            Message::Lower {
                number: transition,
                region,
                asked,
            } => self.lower(number, transition, region, asked),
            _ => unreachable!("compute blades are sent no other messages"),
        }
    }

    fn fill(&mut self, number: u8, frame: Frame) {
        let (page, writable) = (self.plan.homes.page(frame.home).page, frame.writable);
        let blade = &mut self.blades[usize::from(number)];
        let Asked { hart, waiter, .. } = blade.answered(page);
        match blade.cache.find(frame.home) {
            Some(place) => drop(blade.cache.remove(place)),
            None if blade.cache.is_full() => {
                let oldest = blade.cache.oldest;
                self.give_up(number, oldest);
            }
            None => {}
        }
        self.blades[usize::from(number)].cache.insert(frame);
        self.log.take(number, page, writable);
        match waiter {
            Waiter::Step => {
                if let Some(access) = self.harts[usize::from(hart)].awaited.take() {
                    self.access(hart, access);
                }
            }
            Waiter::Drain => {
                self.harts[usize::from(hart)].drain_waits = false;
                self.drain(hart);
            }
        }
    }

    fn deny(&mut self, number: u8, page: Page) {
        let Asked { hart, .. } = self.blades[usize::from(number)].answered(page);
        let hart = &mut self.harts[usize::from(hart)];
        if let Some(access) = hart.awaited.take() {
            hart.fault(access.denial(), access.address);
            self.log.exec(hart.number);
        }
    }

    fn invalidate(&mut self, blade: u8, number: u32, region: RegionNumber, asked: Option<Home>) {
        let region = &self.plan.homes.regions[region.index()];
        let held = self.blades[usize::from(blade)].cache.held(region, |_| true);
        for &home in &held {
            if let Some(place) = self.blades[usize::from(blade)].cache.find(home) {
                self.give_up(blade, place);
            }
        }
        let count = asked.map_or(0, |asked| {
            held.iter().filter(|&&home| home != asked).count()
        });
        self.net.send(
            self.plan.links.up(blade),
            Message::Acknowledge {
                number,
                count: count as u32,
            },
        );
    }

    fn lower(&mut self, number: u8, transition: u32, region: RegionNumber, asked: Home) {
        let region = &self.plan.homes.regions[region.index()];
        let up = self.plan.links.up(number);
        let blade = &mut self.blades[usize::from(number)];
        let held = blade.cache.held(region, |frame| frame.writable);
        for &home in &held {
            let Some(place) = blade.cache.find(home) else {
                continue;
            };
            let frame = blade.cache.frame_mut(place);
            frame.writable = false;
            self.log.down(number, self.plan.homes.page(home).page);
            if std::mem::take(&mut frame.dirty) {
                self.net.send(
                    up,
                    Message::Back {
                        home,
                        image: Rc::clone(&frame.image),
                    },
                );
            }
        }
        let count = held.iter().filter(|&&home| home != asked).count() as u32;
        self.net.send(
            up,
            Message::Acknowledge {
                number: transition,
                count,
            },
        );
    }

    fn report(&self) -> Vec<u8> {
        let mut text = String::from("mind 1\n");
        for hart in &self.harts {
            let end = match hart.end {
                End::Running => format!("running {:08x}", hart.pc),
                End::Exit { value } => format!("exit {value}"),
                End::Fault { fault, value } => {
                    format!("fault {} {value:08x} at {:08x}", fault.word(), hart.pc)
                }
            };
            let output = match hart.output.as_slice() {
                [] => "-".into(),
                bytes => bytes
                    .iter()
                    .map(|byte| format!("{byte:02x}"))
                    .collect::<String>(),
            };
            text += &format!("thread {} {end} out {output}\n", hart.number);
        }
        let Log {
            events,
            labels,
            takes,
            gives,
            downs,
            peak,
            ..
        } = self.log;
        text += &format!("counts events {events} labels {labels} takes {takes} gives {gives} ");
        text += &format!("downs {downs} peak {peak} splits 0 merges 0\n");
        text.into_bytes()
    }
}

impl Fault {
    fn word(self) -> &'static str {
        match self {
            Fault::Fetch => "fetch",
            Fault::Illegal => "illegal",
            Fault::Target => "target",
            Fault::Align => "align",
            Fault::Load => "load",
            Fault::Store => "store",
            Fault::Call => "call",
            Fault::Break => "break",
        }
    }
}
