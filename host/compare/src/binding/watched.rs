//! Lent bytes with a margin on both sides: whoever writes past them is found out.

const MARGIN: usize = 64;
const MARK: u8 = 0xa5;

/// Bytes of a given content, lent for writing.
pub struct Watched {
    all: Vec<u8>,
}

impl Watched {
    pub fn new(content: &[u8]) -> Watched {
        let mut all = vec![MARK; MARGIN];
        all.extend_from_slice(content);
        all.extend_from_slice(&[MARK; MARGIN]);
        Watched { all }
    }

    /// The bytes to lend.
    pub fn lend(&mut self) -> &mut [u8] {
        let end = self.all.len() - MARGIN;
        &mut self.all[MARGIN..end]
    }

    /// The bytes as they are now, once the margins have been looked at.
    pub fn bytes(&self) -> &[u8] {
        let end = self.all.len() - MARGIN;
        let margins = self.all[..MARGIN].iter().chain(&self.all[end..]);
        assert!(margins.into_iter().all(|&byte| byte == MARK), "a byte outside the lent ones was written");
        &self.all[MARGIN..end]
    }
}
