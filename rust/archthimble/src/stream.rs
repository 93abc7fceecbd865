use crate::reader::{Reader, Span};
use crate::refusal::Refusal;
use crate::runs::Place;
use std::io::{self, Read, Seek, SeekFrom};

/// Words for the spans of one read, three each. A read of more spans is a short one, and the caller comes back for the rest.
const STORE: usize = 3 * 16;

/// A stream on a disk, as anything that reads and seeks: [`std::io::Read`] and [`std::io::Seek`] over a [`Reader`].
///
/// Holes read as zeros, and reads end at the data size. Where the runs are over before that, so is the stream: [`Reader::place`] of
/// [`Stream::reader`] then stays below [`Reader::size`]. A refusal is an [`io::Error`] of kind `Other` with the [`Refusal`] inside. A disk
/// that ends inside a run is an error (`UnexpectedEof`), never a shorter stream.
///
/// ```
/// use archthimble::Stream;
/// use std::io::{Cursor, Read, Seek, SeekFrom};
///
/// // a disk of 16 clusters: each byte is the number of its cluster
/// let disk: Vec<u8> = (0..16 * 512).map(|i| (i / 512) as u8).collect();
/// let list = [0x11, 0x02, 0x0a, 0x11, 0x01, 0xfe, 0x01, 0x03, 0x11, 0x02, 0x05, 0x00];
/// let mut stream = Stream::open(Cursor::new(disk), &list, 512, 4000)?;
///
/// stream.seek(SeekFrom::Start(1022))?;
/// let mut bytes = [0; 516];
/// stream.read_exact(&mut bytes)?;
/// assert_eq!(bytes[..3], [11, 11, 8]); // the first run's end, the second one's start
/// assert_eq!(bytes[513..], [8, 0, 0]); // the second one's end, and a hole
///
/// let mut rest = Vec::new();
/// assert_eq!(stream.read_to_end(&mut rest)?, 4000 - 1022 - 516);
/// # Ok::<(), Box<dyn std::error::Error>>(())
/// ```
#[derive(Clone, Debug)]
pub struct Stream<'l, D: Read + Seek> {
    disk: D,
    list: &'l [u8],
    reader: Reader,
}

impl<'l, D: Read + Seek> Stream<'l, D> {
    /// Opens the stream of `size` bytes that `list` lays out on `disk`, in clusters of `cluster` bytes. The disk isn't touched yet.
    ///
    /// # Errors
    /// As for [`Reader::open`].
    pub fn open(disk: D, list: &'l [u8], cluster: u64, size: u64) -> Result<Stream<'l, D>, Refusal> {
        Ok(Stream { disk, list, reader: Reader::open(list, cluster, size)? })
    }

    /// The reader, which knows the place in the stream.
    pub fn reader(&self) -> &Reader {
        &self.reader
    }

    /// The disk, which stands anywhere.
    pub fn get_ref(&self) -> &D {
        &self.disk
    }

    /// The disk back, which stands anywhere.
    pub fn into_inner(self) -> D {
        self.disk
    }
}

impl<D: Read + Seek> Read for Stream<'_, D> {
    fn read(&mut self, buf: &mut [u8]) -> io::Result<usize> {
        let mut store = [0; STORE];
        // A copy moves, and takes the reader's place only once the bytes are there: whatever ends this call early, also a disk that
        // panics, leaves the stream in front of bytes that nobody got.
        let mut moved = self.reader;
        let spans = moved.read(self.list, buf.len() as u64, &mut store).map_err(io::Error::other)?;
        let (done, failure) = fill(&mut self.disk, spans, buf);
        if let Some(error) = failure {
            if done == 0 {
                return Err(error);
            }
            // The bytes in front of the failure are good, and an error would say that there are none: they are handed out, and the error
            // comes again at the next read. But the library has moved past all spans, so the next read would leave out those in between:
            // the place to go on from is right behind the good bytes. It lies in a run that was just decoded, so this isn't refused; if it
            // were, nothing would be handed out and nothing moved.
            moved = self.reader;
            moved.seek(self.list, SeekFrom::Current(done as i64)).map_err(io::Error::other)?;
        }
        self.reader = moved;
        Ok(done)
    }
}

impl<D: Read + Seek> Seek for Stream<'_, D> {
    fn seek(&mut self, to: SeekFrom) -> io::Result<u64> {
        self.reader.seek(self.list, to).map_err(io::Error::other)
    }
}

/// Fills the buffer span by span: how many bytes of it are good, and what ended it before the spans did.
fn fill<D: Read + Seek>(disk: &mut D, spans: impl Iterator<Item = Span>, buf: &mut [u8]) -> (usize, Option<io::Error>) {
    let mut done = 0;
    for span in spans {
        // no span is longer than what is left of the buffer, since all of them together aren't
        let part = &mut buf[done..][..span.length as usize];
        let (good, failure) = match span.place {
            Place::Hole => {
                part.fill(0);
                (part.len(), None)
            }
            Place::Disk(position) => fetch(disk, position, part),
        };
        done += good;
        if failure.is_some() {
            return (done, failure);
        }
    }
    (done, None)
}

/// Fills a part of the buffer from one place on the disk. `read_exact` wouldn't do: it doesn't say how far it came.
fn fetch<D: Read + Seek>(disk: &mut D, position: u64, part: &mut [u8]) -> (usize, Option<io::Error>) {
    let mut good = 0;
    if let Err(error) = disk.seek(SeekFrom::Start(position)) {
        return (good, Some(error));
    }
    while good < part.len() {
        let error = match disk.read(&mut part[good..]) {
            // the end of a stream is given by its data size; a disk that is over before is cut off, and that must not look like an end
            Ok(0) => io::Error::new(io::ErrorKind::UnexpectedEof, "the disk ends inside a run"),
            Ok(n) if n <= part.len() - good => {
                good += n;
                continue;
            }
            Ok(_) => io::Error::other("the disk claims more bytes than it was asked for"),
            Err(error) => error,
        };
        return (good, Some(error));
    }
    (good, None)
}
