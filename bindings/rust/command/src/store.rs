//! The state in a directory: two mapped files, each a seal and an overlay. The newer valid one counts.
//!
//! A call writes the file that doesn't count. When it is accepted its bytes are synced to the disk, and only then the
//! seal with the next generation is written, and synced. A program that is killed, or a machine that loses its power,
//! before the seal is whole goes on with the other file, which nothing has touched.
use crate::fault::Fault;
use crate::mapped::{Head, Mapped};
use mipsuqal::{Overlay, Overlays, Panel};
use std::fs::{self, File, TryLockError};
use std::path::Path;
use std::time::Duration;

const MAGIC: &[u8; 8] = b"mipsuqal";

/// What says that a file holds an overlay, whole.
#[derive(Clone, Copy, PartialEq)]
struct Seal {
    generation: u64,
    used: u64,
    sum: u64,
}

/// FNV-1a, 64 bits.
fn sum(bytes: &[u8]) -> u64 {
    bytes
        .iter()
        .fold(0xcbf2_9ce4_8422_2325, |sum, byte| (sum ^ u64::from(*byte)).wrapping_mul(0x100_0000_01b3))
}

impl Seal {
    fn over(overlay: &Overlay, generation: u64) -> Seal {
        let used = used(overlay.bytes());
        Seal { generation, used: used as u64, sum: sum(&overlay.bytes()[..used]) }
    }

    fn bytes(self) -> Head {
        let words =
            [u64::from_le_bytes(*MAGIC), self.generation, self.used, self.sum].map(u64::to_le_bytes).concat();
        [words.as_slice(), &sum(&words).to_le_bytes()].concat().try_into().expect("five words")
    }

    /// The seal that stands in front of a file, where it is whole.
    fn of(head: &Head) -> Option<Seal> {
        let word = |k: usize| u64::from_le_bytes(head[8 * k..][..8].try_into().expect("eight bytes"));
        let seal = Seal { generation: word(1), used: word(2), sum: word(3) };
        (seal.bytes() == *head).then_some(seal)
    }

    /// Whether it is that of an overlay.
    fn fits(self, overlay: &Overlay) -> bool {
        let used = usize::try_from(self.used).ok().and_then(|used| overlay.bytes().get(..used));
        used.is_some_and(|used| sum(used) == self.sum)
    }
}

/// How many bytes there are up to the last that is not zero: whole blocks of zeros first.
fn used(overlay: &[u8]) -> usize {
    let zeros = overlay.rchunks(4096).take_while(|block| block.iter().fold(0, |all, byte| all | byte) == 0);
    let rest = &overlay[..overlay.len().saturating_sub(4096 * zeros.count())];
    rest.iter().rposition(|byte| *byte != 0).map_or(0, |last| last + 1)
}

pub struct Store {
    files: [Mapped; 2],
    counts: usize,
    generation: u64,
    sealed: bool,
    _lock: File,
}

impl Store {
    /// The state in a directory; a fresh one where there is none yet.
    pub fn panel(directory: &Path) -> Result<Panel<Store>, Fault> {
        let fault = |error: std::io::Error| Fault::state(directory, error);
        fs::create_dir_all(directory).map_err(fault)?;
        let lock = locked(directory)?;
        let open =
            |name| Mapped::open(&directory.join(name)).map_err(|e| Fault::state(&directory.join(name), e));
        let files = [open("a.overlay")?, open("b.overlay")?];
        let newest = newest(&files, directory)?;
        let (counts, generation) = newest.unwrap_or((0, 0));
        let store = Store { files, counts, generation, sealed: true, _lock: lock };
        let mut panel = Panel::over(store);
        if newest.is_none() {
            panel.fresh();
            panel.overlays_mut().commit().map_err(fault)?;
            File::open(directory).and_then(|names| names.sync_all()).map_err(fault)?;
        }
        Ok(panel)
    }

    /// Seals what the last accepted call wrote: from here on it counts, whatever happens.
    pub fn commit(&mut self) -> std::io::Result<()> {
        if self.sealed {
            return Ok(());
        }
        let file = &mut self.files[self.counts];
        let seal = Seal::over(file.overlay(), self.generation + 1);
        file.sync(seal.used as usize)?;
        file.write_head(&seal.bytes())?;
        self.generation += 1;
        self.sealed = true;
        Ok(())
    }
}

/// Which file counts, and its generation: none where neither was ever sealed.
fn newest(files: &[Mapped; 2], directory: &Path) -> Result<Option<(usize, u64)>, Fault> {
    let head = |k: usize| files[k].head().map_err(|error| Fault::state(directory, error));
    let heads = [head(0)?, head(1)?];
    let mut seals: Vec<_> = (0..2).filter_map(|k| Seal::of(&heads[k]).map(|seal| (k, seal))).collect();
    seals.sort_by_key(|(_, seal)| std::cmp::Reverse(seal.generation));
    for (place, (k, seal)) in seals.iter().enumerate() {
        if seal.fits(files[*k].overlay()) {
            if place > 0 {
                eprintln!(
                    "mipsuqal: the newer state file is damaged; going on with generation {}",
                    seal.generation
                );
            }
            return Ok(Some((*k, seal.generation)));
        }
    }
    match heads == [[0; 40]; 2] {
        true => Ok(None),
        false => Err(Fault::state(directory, "both files are damaged; remove the directory to start anew")),
    }
}

/// How often another program is waited for, and how long each time; and when the person who waits is told.
const TRIES: u32 = 1_200;
const PAUSE: Duration = Duration::from_millis(50);
const TOLD: u32 = 40;

/// One program at a time.
fn locked(directory: &Path) -> Result<File, Fault> {
    let fault = |error: std::io::Error| Fault::state(directory, error);
    let file = File::create(directory.join("lock")).map_err(fault)?;
    for attempt in 0..TRIES {
        match file.try_lock() {
            Ok(()) => return Ok(file),
            Err(TryLockError::WouldBlock) => std::thread::sleep(PAUSE),
            Err(TryLockError::Error(error)) => return Err(fault(error)),
        }
        if attempt == TOLD {
            eprintln!("mipsuqal: waiting for another mipsuqal that is at work on {}", directory.display());
        }
    }
    Err(Fault::state(directory, "another mipsuqal is at work on it"))
}

impl Overlays for Store {
    fn current(&self) -> &Overlay {
        self.files[self.counts].overlay()
    }

    fn both(&mut self) -> (&Overlay, &mut Overlay) {
        assert!(self.sealed, "the other file is all that counts until this one is sealed");
        let [first, second] = &mut self.files;
        let (old, new) = if self.counts == 0 { (first, second) } else { (second, first) };
        (old.overlay(), new.overlay_mut())
    }

    fn turn(&mut self) {
        self.counts = 1 - self.counts;
        self.sealed = false;
    }
}
