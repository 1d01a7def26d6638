//! Texts from files, and many of them on all processors.
use sindvaelo::{MOST_BYTES, Reader};
use std::collections::BTreeMap;
use std::ffi::OsStr;
use std::io::{IsTerminal, Read};
use std::sync::atomic::{AtomicBool, AtomicUsize, Ordering};
use std::sync::mpsc;
use std::time::{Duration, Instant};

/// A file's name as it is shown.
pub fn shown(name: &OsStr) -> String {
    if name == "-" { "standard input".to_owned() } else { name.to_string_lossy().into_owned() }
}

/// The bytes of a file, `-` for standard input; of a longer one no more than tell that it is too long.
pub fn text_of(name: &OsStr) -> std::io::Result<Vec<u8>> {
    let mut text = Vec::new();
    let most = MOST_BYTES as u64 + 1;
    if name == "-" {
        std::io::stdin().lock().take(most).read_to_end(&mut text)?;
    } else {
        let file = std::fs::File::open(name)?;
        text.reserve_exact(file.metadata().map_or(0, |data| data.len().min(most) as usize));
        file.take(most).read_to_end(&mut text)?;
    }
    Ok(text)
}

/// Does the work of each item with a `Reader` for each processor, and takes the results in the items' order, until it is told to stop. On a terminal standard
/// error says how far it is.
pub fn in_order<I: Sync, R: Send>(items: &[I], work: impl Fn(&mut Reader, &I) -> R + Sync, mut take: impl FnMut(R) -> bool) {
    let workers = std::thread::available_parallelism().map_or(1, |n| n.get()).min(items.len());
    let (next, stop) = (AtomicUsize::new(0), AtomicBool::new(false));
    let shows = std::io::stderr().is_terminal();
    // So few results wait for their turn that memory stays small.
    let (send, results) = mpsc::sync_channel(64 * workers);
    std::thread::scope(|scope| {
        for _ in 0..workers {
            let send = send.clone();
            let (next, stop, work) = (&next, &stop, &work);
            scope.spawn(move || {
                let mut reader = Reader::new();
                loop {
                    let i = next.fetch_add(1, Ordering::Relaxed);
                    if i >= items.len() || stop.load(Ordering::Relaxed) || send.send((i, work(&mut reader, &items[i]))).is_err() {
                        return;
                    }
                }
            });
        }
        drop(send);
        let (mut waiting, mut turn, mut said) = (BTreeMap::new(), 0, Instant::now());
        for (i, result) in results {
            waiting.insert(i, result);
            while let Some(result) = waiting.remove(&turn) {
                turn += 1;
                if shows && turn > 1 {
                    eprint!("\r\x1b[K");
                }
                if !stop.load(Ordering::Relaxed) && !take(result) {
                    stop.store(true, Ordering::Relaxed);
                }
                if shows && (said.elapsed() > Duration::from_millis(100) || turn == 1) {
                    said = Instant::now();
                    eprint!("\r\x1b[K{turn} of {}", items.len());
                }
            }
        }
        if shows {
            eprint!("\r\x1b[K");
        }
    });
}
