//! A file or pipe that is read ahead by a thread of its own.
//!
//! The two transcripts of a comparison come from one source through programs that buffer.
//! If one were read only when the other has come as far, each could wait for the other.

use std::fs::File;
use std::io::{self, Read};
use std::sync::mpsc::{sync_channel, Receiver, SyncSender};
use std::thread;

/// The length of a chunk, and how many may wait: what one side may be ahead of the other.
const CHUNK: usize = 1 << 18;
const WAITING: usize = 512;

pub struct Ahead {
    chunks: Receiver<io::Result<Vec<u8>>>,
    chunk: Vec<u8>,
    used: usize,
}

impl Ahead {
    pub fn open(path: &str) -> Ahead {
        let (sender, chunks) = sync_channel(WAITING);
        let path = path.to_string();
        thread::spawn(move || {
            // A pipe is opened here too, since that waits for the other end.
            if let Err(error) = File::open(&path).and_then(|file| send_all(file, &sender)) {
                let _ = sender.send(Err(error));
            }
        });
        Ahead {
            chunks,
            chunk: Vec::new(),
            used: 0,
        }
    }
}

fn send_all(mut file: File, sender: &SyncSender<io::Result<Vec<u8>>>) -> io::Result<()> {
    loop {
        let mut chunk = vec![0; CHUNK];
        let read = file.read(&mut chunk)?;
        chunk.truncate(read);
        // Nobody wants the rest if the receiver is gone.
        if read == 0 || sender.send(Ok(chunk)).is_err() {
            return Ok(());
        }
    }
}

impl Read for Ahead {
    fn read(&mut self, room: &mut [u8]) -> io::Result<usize> {
        if self.used == self.chunk.len() {
            let Ok(chunk) = self.chunks.recv() else {
                return Ok(0);
            };
            self.chunk = chunk?;
            self.used = 0;
        }
        let read = room.len().min(self.chunk.len() - self.used);
        room[..read].copy_from_slice(&self.chunk[self.used..self.used + read]);
        self.used += read;
        Ok(read)
    }
}
