//! Where the entries of a trace go.

use crate::space::{Chain, SpaceId, Trace, join_lives};
use std::collections::BTreeMap;
use std::collections::btree_map::Entry;
use std::fs::{self, File};
use std::io::{self, Write};
use std::path::{Path, PathBuf};

// How the names of files with entries of a trace end, and of those with segments of a chain.
const ENTRIES: &str = "entries";
const SEGMENTS: &str = "segments";

/// Takes the entries of a trace, some lines at a time, before the bytes leave that they tell of. A function
/// that takes them is one; [`Files`] is another.
///
/// ```
/// use masttomato::{Node, Peers, SpaceId};
/// use std::sync::{Arc, Mutex};
///
/// # fn main() -> Result<(), Box<dyn std::error::Error>> {
/// let entries = Arc::new(Mutex::new(String::new()));
/// let sink = entries.clone();
/// let node = Node::builder(SpaceId::try_from(1)?, Peers::none())
///     .record(move |lines: &str| {
///         sink.lock().unwrap().push_str(lines);
///         Ok(())
///     })
///     .start()?;
/// # drop(node);
/// # Ok(())
/// # }
/// ```
pub trait TraceSink: Send {
    /// The next lines.
    ///
    /// ```
    /// use masttomato::engine::TraceSink;
    /// use std::io::{self, Write};
    ///
    /// /// Writes the entries to standard output.
    /// struct Shown;
    ///
    /// impl TraceSink for Shown {
    ///     fn entries(&mut self, lines: &str) -> io::Result<()> {
    ///         io::stdout().write_all(lines.as_bytes())
    ///     }
    /// }
    /// ```
    ///
    /// # Errors
    /// Where they can't be kept: then no more are given, and it is counted.
    fn entries(&mut self, lines: &str) -> io::Result<()>;

    /// The stamp of the last entry that earlier lives of the space have left, above which its stamps go on: 0 where there is
    /// none.
    ///
    /// ```
    /// use masttomato::engine::TraceSink;
    ///
    /// let mut entries = String::new();
    /// let sink = |lines: &str| -> std::io::Result<()> {
    ///     entries.push_str(lines);
    ///     Ok(())
    /// };
    /// assert_eq!(sink.last_stamp(), 0);
    /// ```
    fn last_stamp(&self) -> u64 {
        0
    }
}

impl<F: FnMut(&str) -> io::Result<()> + Send> TraceSink for F {
    fn entries(&mut self, lines: &str) -> io::Result<()> {
        self(lines)
    }
}

/// Entries in files of a folder, `space-3.000001.entries` and so on, each up to a size. A process that
/// is killed may leave half a line at the end. [`of_life`](Files::of_life) and [`for_chain`](Files::for_chain) give them other names.
///
/// ```
/// use masttomato::engine::{Files, TraceSink};
/// use masttomato::SpaceId;
///
/// # fn main() -> Result<(), Box<dyn std::error::Error>> {
/// # let folder = std::env::temp_dir().join(format!("masttomato-files-{}", std::process::id()));
/// # std::fs::create_dir_all(&folder)?;
/// let [here, last] = [SpaceId::try_from(1)?, SpaceId::try_from(2)?];
/// let mut files = Files::new(&folder, here, 1 << 20);     // for Builder::record, say
/// files.entries("1 export = exported 1.1\n")?;
/// files.entries("2 dup 1.1 = o")?;
/// let trace = Files::join(&folder, here, last)?;           // for `nobj check`
/// assert_eq!(trace, "trace2 1 of 2 window 64 retry 255 entries 1\n1 export = exported 1.1\n");
/// # std::fs::remove_dir_all(&folder)?;
/// # Ok(())
/// # }
/// ```
#[derive(Debug)]
pub struct Files {
    folder: PathBuf,
    space: SpaceId,
    life: Option<u64>,
    ending: &'static str,
    size: u64,
    syncs: bool,
    number: u32,
    open: Option<(File, u64)>,
}

impl Files {
    /// Files of a space in a folder, each of which is left for the next one once it has this size.
    ///
    /// ```
    /// # use masttomato::engine::*;
    /// # use masttomato::{SpaceId, Value};
    /// # use std::time::Duration;
    /// # let [one, two] = [1, 2].map(|number| SpaceId::new(number).expect("1 to 32"));
    /// # let now = Duration::ZERO;
    /// # let mut engine = Engine::new(Settings::new(one, two), now)?;
    /// engine.record(Box::new(Files::new("traces", one, 1 << 20)));      // traces/space-1.000001.entries, and so on
    /// # Ok::<(), Box<dyn std::error::Error>>(())
    /// ```
    pub fn new(folder: impl Into<PathBuf>, space: SpaceId, size: u64) -> Files {
        let (folder, life) = (folder.into(), None);
        Files { folder, space, life, ending: ENTRIES, size, syncs: false, number: 0, open: None }
    }

    /// The same files, each entry of which is on the disk before the bytes leave that it tells of: so they are right also
    /// of a machine that stops. Without it they are of a process that is killed. It costs a write to the disk for each turn
    /// in which anything happened.
    ///
    /// ```
    /// # use masttomato::engine::*;
    /// # use masttomato::SpaceId;
    /// # let one = SpaceId::new(1).expect("1 to 32");
    /// # let folder = std::env::temp_dir().join(format!("masttomato-synced-{}", std::process::id()));
    /// # std::fs::create_dir_all(&folder)?;
    /// let mut files = Files::new(&folder, one, 1 << 20).synced();
    /// files.entries("1 export = exported 1.1\n")?;
    /// # std::fs::remove_dir_all(&folder)?;
    /// # Ok::<(), Box<dyn std::error::Error>>(())
    /// ```
    #[must_use = "these are other files, and the old ones are gone"]
    pub fn synced(self) -> Files {
        Files { syncs: true, ..self }
    }

    /// The same for one life of a space that keeps bounds, whose other lives have files of their own in the folder:
    /// `space-3.life-000002.000001.entries` and so on. See [`Files::join_lives`].
    ///
    /// ```
    /// # use masttomato::engine::*;
    /// # use masttomato::space::{Bounds, World};
    /// # use masttomato::{Node, Peers, SpaceId};
    /// # let folder = std::env::temp_dir().join(format!("masttomato-of-life-{}", std::process::id()));
    /// # std::fs::create_dir_all(&folder)?;
    /// # let one = SpaceId::new(1).expect("1 to 32");
    /// # let path = folder.join("bounds");
    /// # Bounds::create(&path, World::default(), one, one)?;
    /// let bounds = Bounds::open(&path, World::default(), one, one)?;
    /// let files = Files::of_life(&folder, one, bounds.life(), 1 << 20);
    /// let node = Node::builder(one, Peers::none()).bounds(bounds).record(files).start()?;
    /// # drop(node);
    /// # std::fs::remove_dir_all(&folder)?;
    /// # Ok::<(), Box<dyn std::error::Error>>(())
    /// ```
    pub fn of_life(folder: impl Into<PathBuf>, space: SpaceId, life: u64, size: u64) -> Files {
        Files { life: Some(life), ..Files::new(folder, space, size) }
    }

    /// The same files for a chain, with the lines that [`Engine::record_chain`](super::Engine::record_chain) gives: they are
    /// `space-3.000001.segments` and so on, or `space-3.life-000002.000001.segments` of a life.
    ///
    /// ```
    /// # use masttomato::engine::*;
    /// # use masttomato::space::SegmentSize;
    /// # use masttomato::{SpaceId, Value};
    /// # use std::time::Duration;
    /// # let [one, two] = [1, 2].map(|number| SpaceId::new(number).expect("1 to 32"));
    /// # let now = Duration::ZERO;
    /// # let mut engine = Engine::new(Settings::new(one, two), now)?;
    /// let files = Files::new("chains", one, 1 << 20).for_chain();
    /// engine.record_chain(SegmentSize::default(), Box::new(files));
    /// # Ok::<(), Box<dyn std::error::Error>>(())
    /// ```
    #[must_use = "these are other files, and the old ones are gone"]
    pub fn for_chain(self) -> Files {
        Files { ending: SEGMENTS, ..self }
    }

    /// The trace that a space's files in a folder have together, for `nobj check`. A last line that
    /// isn't whole is left out.
    ///
    /// ```
    /// use masttomato::SpaceId;
    /// use masttomato::engine::Files;
    /// use std::path::Path;
    ///
    /// // All traces of a folder, for `nobj check`.
    /// fn traces(folder: &Path, last: SpaceId) -> std::io::Result<String> {
    ///     last.up_to().map(|space| Files::join(folder, space, last)).collect()
    /// }
    /// # let last = SpaceId::new(2).expect("1 to 32");
    /// # let empty = std::env::temp_dir().join(format!("masttomato-join-{}", std::process::id()));
    /// # std::fs::create_dir_all(&empty)?;
    /// assert_eq!(traces(&empty, last)?.lines().count(), 2);       // nothing was recorded there
    /// # std::fs::remove_dir_all(&empty)?;
    /// # Ok::<(), std::io::Error>(())
    /// ```
    ///
    /// # Errors
    /// Where they can't be read, or are those of lives.
    pub fn join(folder: &Path, space: SpaceId, spaces: SpaceId) -> io::Result<String> {
        let text = text_of(folder, space, ENTRIES)?;
        let whole = whole_lines(&text);
        let count = whole.lines().count() as u64;
        Ok(Trace::first_line(space, spaces, super::LIMITS, count) + whole)
    }

    /// What the lives of all spaces up to one have left in a folder, joined for `nobj check`: see
    /// [`join_lives`](crate::space::join_lives). Of a life that left both a chain and a trace the chain is taken; a space that kept
    /// no bounds has one life. A last line of a life that isn't whole is left out; what else is missing of a life's end, though
    /// its frames left, is refused by `check` (C2).
    ///
    /// ```
    /// use masttomato::SpaceId;
    /// use masttomato::engine::{Files, TraceSink};
    ///
    /// # fn main() -> Result<(), Box<dyn std::error::Error>> {
    /// # let folder = std::env::temp_dir().join(format!("masttomato-lives-{}", std::process::id()));
    /// # std::fs::create_dir_all(&folder)?;
    /// let one = SpaceId::try_from(1)?;
    /// let mut first = Files::of_life(&folder, one, 1, 1 << 20);
    /// first.entries("life 1 indexes 0 calls 0 jobs 0\n1 export = exported 1.1\n2 exp")?;
    /// let mut second = Files::of_life(&folder, one, 2, 1 << 20);
    /// assert_eq!(second.last_stamp(), 1);
    /// second.entries("life 2 indexes 1 calls 0 jobs 0\n2 export = exported 1.2\n")?;
    /// let trace = "trace2 1 of 1 window 64 retry 255 entries 4\n\
    ///              3 export = exported 1.1\n\
    ///              4 release 1.1 = ok\n\
    ///              5 withdraw 1 = withdrawn\n\
    ///              6 export = exported 1.2\n";
    /// assert_eq!(Files::join_lives(&folder, one)?, trace);
    /// # std::fs::remove_dir_all(&folder)?;
    /// # Ok(())
    /// # }
    /// ```
    ///
    /// # Errors
    /// Where they can't be read, or have other lines than such files.
    pub fn join_lives(folder: &Path, spaces: SpaceId) -> io::Result<String> {
        let lives: Vec<Vec<String>> =
            spaces.up_to().map(|space| lives_of(folder, space)).collect::<io::Result<_>>()?;
        let joined = join_lives(spaces, super::LIMITS, &lives);
        joined.map(|traces| traces.concat()).map_err(io::Error::other)
    }

    /// The chain that a space's files in a folder have together, for `nobj check`. What stands behind the last seal is
    /// left out.
    ///
    /// ```
    /// use masttomato::SpaceId;
    /// use masttomato::engine::{Files, TraceSink};
    ///
    /// # fn main() -> Result<(), Box<dyn std::error::Error>> {
    /// # let folder = std::env::temp_dir().join(format!("masttomato-segments-{}", std::process::id()));
    /// # std::fs::create_dir_all(&folder)?;
    /// let [here, last] = [SpaceId::try_from(1)?, SpaceId::try_from(1)?];
    /// let mut files = Files::new(&folder, here, 1 << 20).for_chain();
    /// files.entries("1 export = exported 1.1\nseal 1 live 1\n2 dup 1.1 = ok\nse")?;
    /// let chain = Files::join_chain(&folder, here, last)?;
    /// assert_eq!(chain.lines().next(), Some("chain 1 of 1 window 64 retry 255 segments 1"));
    /// assert_eq!(chain.lines().count(), 4);
    /// # std::fs::remove_dir_all(&folder)?;
    /// # Ok(())
    /// # }
    /// ```
    ///
    /// # Errors
    /// Where they can't be read, or are those of lives.
    pub fn join_chain(folder: &Path, space: SpaceId, spaces: SpaceId) -> io::Result<String> {
        let text = text_of(folder, space, SEGMENTS)?;
        let (mut chain, mut segment) = (String::new(), String::new());
        let (mut segments, mut entries) = (0, 0);
        for line in whole_lines(&text).split_inclusive('\n') {
            segment.push_str(line);
            entries += 1;
            if line.starts_with("seal ") {
                segments += 1;
                chain.push_str(&format!("segment {segments} entries {}\n", entries - 1));
                chain.push_str(&std::mem::take(&mut segment));
                entries = 0;
            }
        }
        Ok(Chain::first_line(space, spaces, super::LIMITS, segments) + &chain)
    }

    fn file(&mut self) -> io::Result<&mut (File, u64)> {
        if self.open.as_ref().is_none_or(|(_, written)| *written >= self.size) {
            self.number += 1;
            let life = self.life.map_or(String::new(), |life| format!(".life-{life:06}"));
            let name = format!("space-{}{life}.{:06}.{}", self.space, self.number, self.ending);
            let path = self.folder.join(name);
            // What another life of the same number has left is never written over.
            let file =
                if self.life.is_some() { File::create_new(path) } else { File::create(path) };
            self.open = Some((file?, 0));
            if self.syncs {
                // The name is to last as long as what is in it.
                File::open(&self.folder)?.sync_all()?;
            }
        }
        self.open.as_mut().ok_or_else(|| io::ErrorKind::NotFound.into())
    }
}

impl TraceSink for Files {
    fn entries(&mut self, lines: &str) -> io::Result<()> {
        let syncs = self.syncs;
        let (file, written) = self.file()?;
        file.write_all(lines.as_bytes())?;
        *written += lines.len() as u64;
        if syncs { file.sync_data() } else { Ok(()) }
    }

    fn last_stamp(&self) -> u64 {
        if self.life.is_none() {
            return 0;
        }
        let last = |path: &Path| {
            let text = fs::read_to_string(path).ok()?;
            let stamp = |line: &str| line.split_once(' ')?.0.parse().ok();
            whole_lines(&text).lines().rev().find_map(stamp)
        };
        // Those of the last life stand last. What can't be read is no trace that could be joined.
        let last_of = |ending| {
            let paths = paths_of(&self.folder, self.space, ending).unwrap_or_default();
            paths.iter().rev().find_map(|(_, path)| last(path))
        };
        [ENTRIES, SEGMENTS].into_iter().filter_map(last_of).max().unwrap_or(0)
    }
}

// A text without a last line that isn't whole.
fn whole_lines(text: &str) -> &str {
    &text[..text.rfind('\n').map_or(0, |end| end + 1)]
}

// What a space's files of a folder whose names end so have together, if it kept no bounds.
fn text_of(folder: &Path, space: SpaceId, ending: &str) -> io::Result<String> {
    let paths = paths_of(folder, space, ending)?;
    if paths.iter().any(|((life, _), _)| life.is_some()) {
        return Err(io::Error::other(
            "these are the files of lives, which Files::join_lives joins",
        ));
    }
    paths.iter().map(|(_, path)| fs::read_to_string(path)).collect()
}

/// Where a file stands among those of its space: in which life, if it is of one, and in which place.
type Place = (Option<u64>, u32);

// These files, in order: a life's behind those of the life before.
fn paths_of(folder: &Path, space: SpaceId, ending: &str) -> io::Result<Vec<(Place, PathBuf)>> {
    let mut paths = Vec::new();
    for entry in fs::read_dir(folder)? {
        let path = entry?.path();
        let name = path.file_name().and_then(|name| name.to_str());
        if let Some(place) = name.and_then(|name| place_of(name, space, ending)) {
            paths.push((place, path));
        }
    }
    paths.sort();
    Ok(paths)
}

// The place that the name of a file says, where it is one of this space's that ends so.
fn place_of(name: &str, space: SpaceId, ending: &str) -> Option<Place> {
    let rest = name.strip_prefix(&format!("space-{space}."))?;
    let rest = rest.strip_suffix(ending)?.strip_suffix('.')?;
    match rest.split_once('.') {
        None => Some((None, rest.parse().ok()?)),
        Some((life, number)) => {
            let life = life.strip_prefix("life-")?.parse().ok()?;
            Some((Some(life), number.parse().ok()?))
        }
    }
}

// What each life of a space has left, in order: its chain, where it left one, and else its trace.
fn lives_of(folder: &Path, space: SpaceId) -> io::Result<Vec<String>> {
    let mut lives: BTreeMap<Option<u64>, String> = BTreeMap::new();
    for ending in [SEGMENTS, ENTRIES] {
        let paths = paths_of(folder, space, ending)?;
        for of_life in paths.chunk_by(|((one, _), _), ((other, _), _)| one == other) {
            let ((life, _), _) = of_life[0];
            if let Entry::Vacant(place) = lives.entry(life) {
                let texts = of_life.iter().map(|(_, path)| fs::read_to_string(path));
                let text: String = texts.collect::<io::Result<_>>()?;
                place.insert(whole_lines(&text).to_string());
            }
        }
    }
    Ok(lives.into_values().collect())
}
