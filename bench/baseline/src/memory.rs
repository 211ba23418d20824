//! Flat guest memory.

pub const FRAME_WORDS: usize = 1024;
const FRAME_LIMIT: usize = 4096;

/// Why a frame of a flat memory has no words.
pub const NO_FRAME: u32 = 1;

pub struct Memory {
    words: Vec<u32>,
    frames: usize,
}

impl Memory {
    pub fn new(frames: usize) -> Memory {
        Memory {
            words: vec![0; frames * FRAME_WORDS],
            frames: frames.min(FRAME_LIMIT),
        }
    }

    /// The words of a frame, where it has any.
    #[inline]
    pub fn frame(&self, frame: u32) -> Option<&[u32; FRAME_WORDS]> {
        let frame = frame as usize;
        if frame >= self.frames {
            return None;
        }
        self.words[frame * FRAME_WORDS..].first_chunk()
    }

    #[inline]
    pub fn has(&self, frame: u32) -> bool {
        (frame as usize) < self.frames
    }

    #[inline]
    pub fn read(&self, frame: u32, index: usize) -> Option<u32> {
        self.frame(frame).map(|words| words[index % FRAME_WORDS])
    }

    #[inline]
    pub fn write(&mut self, frame: u32, index: usize, word: u32) {
        let frame = frame as usize;
        if frame < self.frames {
            self.words[frame * FRAME_WORDS + index % FRAME_WORDS] = word;
        }
    }
}
