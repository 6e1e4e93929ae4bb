//! The trace format's numbers: "All numbers are little-endian." Whatever is
//! not there, or not allowed, is `Bad`.

/// "the line `bad`, and the run ends".
#[derive(Clone, Copy, PartialEq, Eq, Debug)]
pub struct Bad;

pub type Read<T> = Result<T, Bad>;

/// "n, m and k are at most 4,096".
const LARGEST_COUNT: u16 = 4096;

pub fn bad_if(condition: bool) -> Read<()> {
    if condition {
        Err(Bad)
    } else {
        Ok(())
    }
}

/// What is left of the input.
pub struct Input<'a> {
    rest: &'a [u8],
}

impl<'a> Input<'a> {
    pub fn new(bytes: &'a [u8]) -> Input<'a> {
        Input { rest: bytes }
    }

    pub fn is_at_end(&self) -> bool {
        self.rest.is_empty()
    }

    /// The next k bytes; "a cut ... record" where there are fewer.
    pub fn bytes(&mut self, k: usize) -> Read<&'a [u8]> {
        bad_if(self.rest.len() < k)?;
        let (taken, rest) = self.rest.split_at(k);
        self.rest = rest;
        Ok(taken)
    }

    fn array<const K: usize>(&mut self) -> Read<[u8; K]> {
        let mut array = [0; K];
        array.copy_from_slice(self.bytes(K)?);
        Ok(array)
    }

    pub fn u8(&mut self) -> Read<u8> {
        Ok(self.array::<1>()?[0])
    }

    pub fn u16(&mut self) -> Read<u16> {
        Ok(u16::from_le_bytes(self.array()?))
    }

    pub fn u32(&mut self) -> Read<u32> {
        Ok(u32::from_le_bytes(self.array()?))
    }

    pub fn u64(&mut self) -> Read<u64> {
        Ok(u64::from_le_bytes(self.array()?))
    }

    pub fn slot(&mut self) -> Read<[u8; 16]> {
        self.array()
    }

    /// "A wrap or a flag field is one byte, 0 or 1"; above 1 it is bad.
    pub fn bit(&mut self) -> Read<bool> {
        let byte = self.u8()?;
        bad_if(byte > 1)?;
        Ok(byte == 1)
    }

    /// An n, m or k.
    pub fn count(&mut self) -> Read<u16> {
        let count = self.u16()?;
        bad_if(count > LARGEST_COUNT)?;
        Ok(count)
    }
}

/// "Past means that the start plus k is above the length."
pub fn bad_if_past(start: usize, k: usize, length: usize) -> Read<()> {
    bad_if(start + k > length)
}
